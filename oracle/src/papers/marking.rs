//! "Store moves": marking, and the flush of an IDR picture.

use crate::image::{Machine, Slot, SLOTS};

type Slots = [Slot; SLOTS];

/// Marking leaves fewer marked than this.
const SLIDING_LIMIT: usize = 5;

pub fn marking(machine: &mut Machine, gap: u32) {
    let mut pic = swept(&machine.pic, |i, slot| outdated(gap, i, slot));
    let notes = slide(&mut pic);
    walk(&mut pic, &notes);
    machine.pic = pic;
    machine.cur_num_ref_pics = machine.marked() as u8;
}

/// How many pictures the first step unmarks, and how many the sliding limit.
pub fn unmarked_by(machine: &Machine, gap: u32) -> (usize, usize) {
    let first = (0..SLOTS).filter(|i| outdated(gap, *i, &machine.pic[*i])).count();
    let left = machine.marked() - first;
    (first, (left + 1).saturating_sub(SLIDING_LIMIT))
}

/// IDR: unmark every slot, move nothing.
pub fn flush(machine: &mut Machine) {
    machine.pic.iter_mut().for_each(|slot| slot.is_ref = false);
    machine.cur_num_ref_pics = 0;
}

/// A reference with layer above 0, or standing in a slot above 0 with gap above 0 and number not a multiple.
fn outdated(gap: u32, i: usize, slot: &Slot) -> bool {
    slot.marked() && (slot.temporal_id > 0 || (i > 0 && gap > 0 && !slot.poc.is_multiple_of(gap)))
}

/// Those picked go, unmarked, behind those kept; both keep their order.
fn swept(pic: &Slots, picks: impl Fn(usize, &Slot) -> bool) -> Slots {
    let kept = (0..SLOTS).filter(|i| !picks(*i, &pic[*i])).map(|i| pic[i]);
    let picked = (0..SLOTS).filter(|i| picks(*i, &pic[*i])).map(|i| Slot { is_ref: false, ..pic[i] });
    let mut order = kept.chain(picked);
    std::array::from_fn(|_| order.next().unwrap())
}

/// While 5 or more are marked, unmark the first marked slot and note it.
fn slide(pic: &mut Slots) -> [bool; SLOTS] {
    let mut notes = [false; SLOTS];
    while pic.iter().filter(|slot| slot.marked()).count() >= SLIDING_LIMIT {
        let first = pic.iter().position(Slot::marked).unwrap();
        pic[first].is_ref = false;
        notes[first] = true;
    }
    notes
}

/// At each noted index send what stands there now to slot 26. The notes don't slide.
fn walk(pic: &mut Slots, notes: &[bool; SLOTS]) {
    for i in 0..SLOTS {
        if notes[i] {
            pic[i..].rotate_left(1);
        }
    }
}
