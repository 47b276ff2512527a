//! The original Rust on the image of a machine. Nothing is tested first: what it does, it does.

use crate::api::frame::{Frame, NO_BUFFER};
use crate::api::{ChromaSampling, EvcError, SliceType};
use crate::call::{Answer, Call, Lists, Outcome, Put};
use crate::def::{EvcPoc, EvcSps, REFP_NUM};
use crate::image::{Entry, Image, Machine, Record, Slot, LISTS, PLACES};
use crate::papers::MAX_POC;
use crate::picman::{EvcPic, EvcPm, EvcRefP};
use crate::{enc::tbl, util};
use std::cell::RefCell;
use std::rc::Rc;

type Picture = Rc<RefCell<EvcPic>>;

pub struct Original {
    pm: EvcPm,
    refp: Vec<Vec<EvcRefP>>,
    poc: EvcPoc,
    sps: EvcSps,
}

impl Default for Original {
    fn default() -> Self {
        let places = || (0..REFP_NUM).map(|_| EvcRefP::new()).collect();
        Original {
            // No samples: a frame is its buffer number.
            pm: EvcPm::new(0, 0, ChromaSampling::Cs400),
            refp: (0..PLACES).map(|_| places()).collect(),
            poc: EvcPoc::default(),
            sps: EvcSps::default(),
        }
    }
}

impl Original {
    /// A live original in this state, with the pictures in slots, lease and lists shared by buffer number.
    /// None where the Rust cannot hold the lists.
    pub fn from_machine(machine: &Machine) -> Option<Original> {
        if !machine.lists_in_rust() {
            return None;
        }
        let mut pictures = Pictures { by_buffer: [const { None }; 256] };
        let mut original = Original::default();
        let pm = &mut original.pm;
        for (place, slot) in pm.pic.iter_mut().zip(&machine.pic) {
            *place = pictures.held(slot);
        }
        pm.pic_lease = pictures.held(&machine.lease);
        pm.max_pb_size = machine.max_pb_size;
        pm.max_num_ref_pics = machine.max_num_ref_pics;
        pm.cur_pb_size = machine.cur_pb_size;
        pm.cur_num_ref_pics = machine.cur_num_ref_pics;
        pm.num_refp = machine.num_refp;
        pm.poc_next_output = machine.poc_next_output;
        pm.poc_increase = machine.poc_increase;
        for lidx in 0..LISTS {
            for i in 0..PLACES {
                original.refp[i][lidx] = pictures.entry(&machine.refp[lidx][i]);
            }
        }
        original.poc = EvcPoc {
            poc_val: machine.record.poc_val,
            prev_poc_val: machine.record.prev_poc_val,
            prev_doc_offset: machine.record.prev_doc_offset,
        };
        Some(original)
    }

    pub fn to_machine(&self) -> Machine {
        let pm = &self.pm;
        Machine {
            pic: std::array::from_fn(|i| slot_of(&pm.pic[i])),
            lease: slot_of(&pm.pic_lease),
            max_pb_size: pm.max_pb_size,
            max_num_ref_pics: pm.max_num_ref_pics,
            cur_pb_size: pm.cur_pb_size,
            cur_num_ref_pics: pm.cur_num_ref_pics,
            num_refp: pm.num_refp,
            poc_next_output: pm.poc_next_output,
            poc_increase: pm.poc_increase,
            refp: std::array::from_fn(|lidx| std::array::from_fn(|i| entry_of(&self.refp[i][lidx]))),
            record: Record {
                poc_val: self.poc.poc_val,
                prev_poc_val: self.poc.prev_poc_val,
                prev_doc_offset: self.poc.prev_doc_offset,
            },
        }
    }

    pub fn write_image(&self, image: &mut Image) {
        self.to_machine().encode(image);
    }

    #[inline]
    pub fn call(&mut self, call: &Call) -> Outcome {
        match call {
            Call::Init { max_pb_size, max_num_ref_pics } => self.init(*max_pb_size, *max_num_ref_pics),
            Call::Get => self.get(),
            Call::Put(put) => Ok(self.put(put)),
            Call::Out => self.out(),
            Call::Lists(lists) => self.lists(lists),
            Call::Derive { log2_length, layer } => Ok(self.derive(*log2_length, *layer)),
        }
    }

    /// The same behind tests that cost nothing (3, 4, 6, 15); the rest is left to the original, which may panic or never
    /// return.
    #[inline]
    pub fn guarded(&mut self, call: &Call) -> Outcome {
        match call {
            Call::Get if self.has_lease() => Err(3),
            Call::Put(put) if !put.has(Put::NO_PICTURE) && put.poc > MAX_POC => Err(6),
            Call::Put(put) if !put.has(Put::NO_PICTURE) && !self.has_lease() => Err(4),
            Call::Lists(lists) if lists.poc > MAX_POC => Err(6),
            Call::Derive { log2_length, layer } if *log2_length > 15 || layer > log2_length => Err(15),
            _ => self.call(call),
        }
    }

    fn has_lease(&self) -> bool {
        self.pm.pic_lease.is_some()
    }

    fn init(&mut self, max_pb_size: u8, max_num_ref_pics: u8) -> Outcome {
        self.pm.evc_picman_init(max_pb_size, max_num_ref_pics).map_err(refusal)?;
        Ok(Answer::Done)
    }

    fn get(&mut self) -> Outcome {
        let picture = self.pm.evc_picman_get_empty_pic().map_err(refusal)?.unwrap();
        let picture = picture.borrow();
        let mut frame = picture.frame.borrow_mut();
        if frame.buffer == NO_BUFFER {
            frame.buffer = self.smallest_free_buffer();
        }
        Ok(Answer::Picture { buf: frame.buffer, poc: picture.poc })
    }

    /// Added by the specification: the smallest number that no slot holds.
    fn smallest_free_buffer(&self) -> u8 {
        let held = self.pm.pic.iter().flatten().fold(0u32, |held, picture| held | 1 << buffer_of(picture));
        held.trailing_ones() as u8
    }

    fn put(&mut self, put: &Put) -> Answer {
        let picture = if put.has(Put::NO_PICTURE) { None } else { self.pm.pic_lease.clone() };
        self.pm.evc_picman_put_pic(
            &picture,
            put.has(Put::IDR),
            put.poc,
            put.temporal_id,
            put.has(Put::WANTED),
            &mut self.refp,
            put.has(Put::REFERENCE),
            put.gap,
        );
        match picture {
            None => Answer::Done,
            Some(picture) => shown(&picture),
        }
    }

    fn out(&mut self) -> Outcome {
        match self.pm.evc_picman_out_pic() {
            Ok(Some(picture)) => Ok(shown(&picture)),
            Ok(None) => Ok(Answer::NotYet),
            Err(EvcError::EVC_OK_NO_MORE_OUTPUT) => Ok(Answer::NoMore),
            Err(error) => Err(refusal(error)),
        }
    }

    fn lists(&mut self, lists: &Lists) -> Outcome {
        let Lists { slice_type, poc, layer, last_intra, limit } = *lists;
        let slice_type = SliceType::from(slice_type);
        self.pm
            .evc_picman_refp_init(limit, slice_type, poc, layer, last_intra, &mut self.refp)
            .map_err(refusal)?;
        Ok(Answer::Counts(self.pm.num_refp[0], self.pm.num_refp[1]))
    }

    fn derive(&mut self, log2_length: u8, layer: u8) -> Answer {
        self.sps.log2_sub_gop_length = log2_length;
        util::evc_poc_derivation(&self.sps, layer, &mut self.poc);
        Answer::Number(self.poc.poc_val)
    }

    /// `check_copy_refp` wants the lists as arrays, so they are moved there and back.
    pub fn copy(&mut self, cnt: usize, lidx: usize, entry: &Entry) -> Outcome {
        let source = self.entry_from(entry);
        let refp = &mut self.refp;
        let mut grid: [[EvcRefP; REFP_NUM]; PLACES] = std::array::from_fn(|i| {
            std::array::from_fn(|list| std::mem::replace(&mut refp[i][list], EvcRefP::new()))
        });
        let copied = EvcPm::check_copy_refp(&mut grid, cnt, lidx, &source);
        for (places, moved) in refp.iter_mut().zip(grid) {
            *places = moved.into();
        }
        copied.map_err(refusal)?;
        Ok(Answer::Done)
    }

    /// The entry with the live picture of its buffer number, where slots or lease hold one.
    fn entry_from(&self, entry: &Entry) -> EvcRefP {
        let mut pictures = Pictures { by_buffer: [const { None }; 256] };
        for picture in self.pm.pic.iter().chain([&self.pm.pic_lease]).flatten() {
            pictures.by_buffer[usize::from(buffer_of(picture))] = Some(Rc::clone(picture));
        }
        pictures.entry(entry)
    }
}

/// The original's tables, as its encoder indexes them. None where that panics.
pub fn slice_depth(length: u64, position: u64) -> Option<u8> {
    depth_in(&tbl::tbl_slice_depth, length, position)
}

pub fn slice_depth_p(length: u64, position: u64) -> Option<u8> {
    depth_in(&tbl::tbl_slice_depth_P, length, position)
}

fn depth_in<const N: usize>(table: &[[u8; N]], length: u64, position: u64) -> Option<u8> {
    let row = table.get(usize::try_from(length >> 2).ok()?)?;
    row.get(usize::try_from(position).ok()?).copied()
}

/// The numbers that the specification gives to the errors that the original returns.
fn refusal(error: EvcError) -> u8 {
    match error {
        EvcError::EVC_ERR_UNSUPPORTED => 1,
        EvcError::EVC_ERR_UNKNOWN => 2,
        EvcError::EVC_ERR => 13,
        other => panic!("the original returns {other:?}"),
    }
}

fn shown(picture: &Picture) -> Answer {
    Answer::Picture { buf: buffer_of(picture), poc: picture.borrow().poc }
}

fn buffer_of(picture: &Picture) -> u8 {
    picture.borrow().frame.borrow().buffer
}

fn slot_of(place: &Option<Picture>) -> Slot {
    let Some(picture) = place else {
        return Slot::default();
    };
    let buf = buffer_of(picture);
    let picture = picture.borrow();
    Slot {
        present: true,
        buf,
        is_ref: picture.is_ref,
        need_for_out: picture.need_for_out,
        temporal_id: picture.temporal_id,
        poc: picture.poc,
        list_poc: picture.list_poc,
    }
}

fn entry_of(refp: &EvcRefP) -> Entry {
    Entry {
        present: refp.pic.is_some(),
        buf: refp.pic.as_ref().map_or(0, buffer_of),
        poc: refp.poc,
        list_poc: refp.list_poc,
    }
}

/// The pictures of a state that is being made, by buffer number.
struct Pictures {
    by_buffer: [Option<Picture>; 256],
}

impl Pictures {
    fn held(&mut self, slot: &Slot) -> Option<Picture> {
        if !slot.present {
            return None;
        }
        let picture = picture_with(slot);
        self.by_buffer[usize::from(slot.buf)] = Some(Rc::clone(&picture));
        Some(picture)
    }

    fn entry(&mut self, entry: &Entry) -> EvcRefP {
        let mut refp = EvcRefP::new();
        refp.poc = entry.poc;
        refp.list_poc = entry.list_poc;
        if entry.present {
            refp.pic = Some(self.listed(entry.buf));
        }
        refp
    }

    /// A list may hold a picture that has left the store.
    fn listed(&mut self, buf: u8) -> Picture {
        let gone = || picture_with(&Slot { buf, ..Slot::default() });
        Rc::clone(self.by_buffer[usize::from(buf)].get_or_insert_with(gone))
    }
}

fn picture_with(slot: &Slot) -> Picture {
    let mut picture = EvcPic::new(0, 0, ChromaSampling::Cs400);
    let mut frame = Frame::new(0, 0, ChromaSampling::Cs400);
    frame.buffer = slot.buf;
    picture.frame = Rc::new(RefCell::new(frame));
    picture.is_ref = slot.is_ref;
    picture.need_for_out = slot.need_for_out;
    picture.temporal_id = slot.temporal_id;
    picture.poc = slot.poc;
    picture.list_poc = slot.list_poc;
    Rc::new(RefCell::new(picture))
}
