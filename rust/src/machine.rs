//! The running machine.

use crate::why::{self, Reason};
use crate::{ANSWER, IMAGE};

const SLOTS: usize = 27;
const PLACES: usize = 21;
const ROWS: usize = 73;
const REGISTERS: usize = 13;

/// A put's flags.
pub const IDR: u8 = 1;
pub const WANTED: u8 = 2;
pub const REFERENCE: u8 = 4;
pub const NO_PICTURE: u8 = 8;

/// Slice types; any other number is an unknown one.
pub const SLICE_I: u8 = 1;
pub const SLICE_P: u8 = 2;
pub const SLICE_B: u8 = 3;

mod library {
    extern "C" {
        pub fn picman_machine_new(k: *mut u64, kn: usize, w: *mut u32, wn: usize, r: *mut u32, rn: usize) -> u8;
        pub fn picman_machine_init(
            k: *mut u64,
            kn: usize,
            w: *mut u32,
            wn: usize,
            r: *mut u32,
            rn: usize,
            max_pb_size: u8,
            max_num_ref_pics: u8,
        ) -> u64;
        pub fn picman_machine_get(k: *mut u64, kn: usize, w: *mut u32, wn: usize, r: *mut u32, rn: usize) -> u64;
        pub fn picman_machine_put(
            k: *mut u64,
            kn: usize,
            w: *mut u32,
            wn: usize,
            r: *mut u32,
            rn: usize,
            flags: u8,
            poc: u32,
            temporal_id: u8,
            ref_pic_gap_length: u32,
        ) -> u64;
        pub fn picman_machine_out(k: *mut u64, kn: usize, w: *mut u32, wn: usize, r: *mut u32, rn: usize) -> u64;
        pub fn picman_machine_lists(
            k: *mut u64,
            kn: usize,
            w: *mut u32,
            wn: usize,
            r: *mut u32,
            rn: usize,
            slice_type: u8,
            poc: u32,
            layer_id: u8,
            last_intra: u32,
            max_num_ref_pics: u8,
        ) -> u64;
        pub fn picman_machine_derive(
            k: *mut u64,
            kn: usize,
            w: *mut u32,
            wn: usize,
            r: *mut u32,
            rn: usize,
            log2_sub_gop_length: u8,
            tid: u8,
        ) -> u64;
        pub fn picman_machine_copy(
            w: *mut u32,
            wn: usize,
            cnt: u64,
            lidx: u64,
            present: u8,
            buf: u8,
            poc: u32,
            list_poc: *const u32,
            list_poc_len: usize,
        ) -> u8;
        pub fn picman_machine_call(
            k: *mut u64,
            kn: usize,
            w: *mut u32,
            wn: usize,
            r: *mut u32,
            rn: usize,
            call: *const u8,
            call_len: usize,
            answer: *mut u8,
            answer_len: usize,
        ) -> u8;
        pub fn picman_machine_load(
            k: *mut u64,
            kn: usize,
            w: *mut u32,
            wn: usize,
            r: *mut u32,
            rn: usize,
            image: *const u8,
            image_len: usize,
        ) -> u8;
        pub fn picman_machine_save(
            k: *const u64,
            kn: usize,
            w: *const u32,
            wn: usize,
            r: *const u32,
            rn: usize,
            image: *mut u8,
            image_len: usize,
        ) -> u8;
    }
}

/// The running machine, 6,400 bytes. All zero is the new one. Any bits may stand in it: every call ends, and where the state
/// is not whole a call that reads it gives 7 and changes nothing; [`Machine::derive`] and [`Machine::copy`] do not read it.
/// `include/picman.h` says when a state is whole, and which numbers an accepted call leaves open. Calls keep a state whole.
#[derive(Clone, Debug, PartialEq, Eq)]
#[repr(C)]
pub struct Machine {
    /// Slot i: number << 16 | layer << 8 | buffer << 3 | wanted << 2 | marked << 1 | 1, and 0 where it is empty.
    pub keys: [u64; SLOTS],
    /// 0 to 26: list numbers of the picture in that buffer. 27, 28: 2 * buffer + flag of the forward and the backward
    /// entries. 29, 30: their numbers. 31 to 72: the list numbers of each entry, forward first.
    pub rows: [[u32; PLACES]; ROWS],
    /// The lease's key, low and high half; next output number; poc_val, prev_poc_val, prev_doc_offset; max_pb_size,
    /// max_num_ref_pics, cur_pb_size, cur_num_ref_pics, num_refp of both lists, poc_increase.
    pub registers: [u32; REGISTERS],
}

/// What a call comes to.
#[must_use]
#[derive(Clone, Copy, Debug, PartialEq, Eq)]
pub struct Answer {
    /// 0, a refusal, [`crate::NOT_YET`] or [`crate::NO_MORE`].
    pub status: u8,
    pub buffer: Option<u8>,
    /// The picture number of a get, a put and an out; [`Answer::counts`] of a list call; [`Answer::number`] of a derivation;
    /// else 0.
    pub value: u32,
}

impl Answer {
    fn new(bits: u64) -> Answer {
        let buffer = (bits >> 8) as u8;
        Answer { status: bits as u8, buffer: (buffer != 0xff).then_some(buffer), value: (bits >> 32) as u32 }
    }

    /// The forward and the backward count of a list call.
    #[must_use]
    pub fn counts(&self) -> (u8, u8) {
        ((self.value >> 8) as u8, self.value as u8)
    }

    /// The number of a derivation.
    #[must_use]
    pub fn number(&self) -> i32 {
        self.value as i32
    }
}

/// An entry of a list, for a copy.
#[derive(Clone, Copy, Debug, PartialEq, Eq)]
pub struct Entry {
    pub present: bool,
    pub buf: u8,
    pub poc: u32,
    pub list_poc: [u32; PLACES],
}

impl Default for Machine {
    fn default() -> Machine {
        Machine::new()
    }
}

/// Passes the three arrays, each with its length, and what follows them. What may be written overlaps nothing else, and the
/// library asks nothing more and keeps no pointer.
macro_rules! ask {
    ($machine:ident . $function:ident ( $($more:expr),* )) => {
        unsafe {
            library::$function(
                $machine.keys.as_mut_ptr(),
                SLOTS,
                $machine.rows.as_flattened_mut().as_mut_ptr(),
                ROWS * PLACES,
                $machine.registers.as_mut_ptr(),
                REGISTERS,
                $($more),*
            )
        }
    };
}

impl Machine {
    #[must_use]
    pub fn new() -> Machine {
        let mut machine = Machine { keys: [0; SLOTS], rows: [[0; PLACES]; ROWS], registers: [0; REGISTERS] };
        machine.reset();
        machine
    }

    /// The new machine, whatever stood there.
    pub fn reset(&mut self) {
        let status = ask!(self.picman_machine_new());
        assert_eq!(status, 0, "the lengths fit");
    }

    pub fn init(&mut self, max_pb_size: u8, max_num_ref_pics: u8) -> Answer {
        Answer::new(ask!(self.picman_machine_init(max_pb_size, max_num_ref_pics)))
    }

    /// Leases a picture: the idle one in the lowest slot as it is, else a new one with number 0.
    pub fn get(&mut self) -> Answer {
        Answer::new(ask!(self.picman_machine_get()))
    }

    /// Marks, and puts the leased picture into the store, without [`NO_PICTURE`]. Flags over 15 are turned down with 18.
    pub fn put(&mut self, flags: u8, poc: u32, temporal_id: u8, ref_pic_gap_length: u32) -> Answer {
        Answer::new(ask!(self.picman_machine_put(flags, poc, temporal_id, ref_pic_gap_length)))
    }

    /// The next picture for output.
    pub fn out(&mut self) -> Answer {
        Answer::new(ask!(self.picman_machine_out()))
    }

    /// Builds the reference lists of a slice.
    pub fn lists(
        &mut self,
        slice_type: u8,
        poc: u32,
        layer_id: u8,
        last_intra: i32,
        max_num_ref_pics: u8,
    ) -> Answer {
        let last_intra = last_intra as u32;
        Answer::new(ask!(self.picman_machine_lists(slice_type, poc, layer_id, last_intra, max_num_ref_pics)))
    }

    /// Derives the number of the next picture of a layer in a group of 2^`log2_sub_gop_length`. It has to do with the record
    /// alone, so it also works where the state is not whole.
    pub fn derive(&mut self, log2_sub_gop_length: u8, tid: u8) -> Answer {
        Answer::new(ask!(self.picman_machine_derive(log2_sub_gop_length, tid)))
    }

    /// Writes an entry at place `cnt` of list `lidx`; refusal 13 or 14. It has to do with the lists alone, so it also works
    /// where the state is not whole.
    pub fn copy(&mut self, cnt: u64, lidx: u64, entry: &Entry) -> Result<(), u8> {
        done(unsafe {
            library::picman_machine_copy(
                self.rows.as_flattened_mut().as_mut_ptr(),
                ROWS * PLACES,
                cnt,
                lidx,
                entry.present.into(),
                entry.buf,
                entry.poc,
                entry.list_poc.as_ptr(),
                PLACES,
            )
        })
    }

    /// One call from the bytes of a call line, check byte too, not in hex: the bytes of its answer line.
    #[must_use]
    pub fn call(&mut self, call: &[u8]) -> [u8; ANSWER] {
        let mut answer = [0; ANSWER];
        let status = ask!(self.picman_machine_call(call.as_ptr(), call.len(), answer.as_mut_ptr(), ANSWER));
        assert_eq!(status, answer[1], "the lengths fit");
        answer
    }

    /// Why the picture of a slot is or is not in the forward list of a list call, as [`crate::image::why`].
    pub fn why(&self, call: &[u8], slot: u8) -> Result<Reason, u8> {
        why::of_arrays(&self.keys, self.rows.as_flattened(), &self.registers, call, slot)
    }

    /// The machine of an image; refusal 18 where a flag byte of it is neither 0 nor 1, 7 where its state is not whole.
    pub fn load(&mut self, image: &[u8; IMAGE]) -> Result<(), u8> {
        done(ask!(self.picman_machine_load(image.as_ptr(), IMAGE)))
    }

    /// The image of the machine; refusal 7 where the state is not whole, and the image stays as it was.
    pub fn save(&self, image: &mut [u8; IMAGE]) -> Result<(), u8> {
        done(unsafe {
            library::picman_machine_save(
                self.keys.as_ptr(),
                SLOTS,
                self.rows.as_flattened().as_ptr(),
                ROWS * PLACES,
                self.registers.as_ptr(),
                REGISTERS,
                image.as_mut_ptr(),
                IMAGE,
            )
        })
    }
}

fn done(status: u8) -> Result<(), u8> {
    if status == 0 {
        Ok(())
    } else {
        Err(status)
    }
}
