//! "A state is torn unless": the rules of a whole state.

use super::MAX_POC;
use crate::image::{Machine, Slot, PLACES, SLOTS};

pub const RULES: [&str; 10] = [
    "store size at most 27",
    "reference limit at most 21",
    "both list counts at most 21",
    "stored size equals the occupied slots",
    "stored reference count equals the marked slots",
    "an empty slot is all zero",
    "an empty lease is all zero",
    "buffer numbers in 0 to 26",
    "buffer numbers differ over slots and lease",
    "pictures' numbers at most 2,147,483,647",
];

pub fn rules(machine: &Machine) -> [bool; RULES.len()] {
    let count_fits = |count: &u8| usize::from(*count) <= PLACES;
    [
        usize::from(machine.max_pb_size) <= SLOTS,
        usize::from(machine.max_num_ref_pics) <= PLACES,
        machine.num_refp.iter().all(count_fits),
        usize::from(machine.cur_pb_size) == machine.occupied(),
        usize::from(machine.cur_num_ref_pics) == machine.marked(),
        machine.pic.iter().all(zero_if_empty),
        zero_if_empty(&machine.lease),
        held(machine).all(|slot| usize::from(slot.buf) < SLOTS),
        buffers_differ(machine),
        held(machine).all(|slot| slot.poc <= MAX_POC),
    ]
}

pub fn whole(machine: &Machine) -> bool {
    rules(machine).iter().all(|holds| *holds)
}

/// The pictures in slots and lease.
fn held(machine: &Machine) -> impl Iterator<Item = &Slot> {
    machine.pic.iter().chain([&machine.lease]).filter(|slot| slot.present)
}

fn zero_if_empty(slot: &Slot) -> bool {
    slot.present || *slot == Slot::default()
}

fn buffers_differ(machine: &Machine) -> bool {
    let mut seen = [false; 256];
    held(machine).all(|slot| !std::mem::replace(&mut seen[usize::from(slot.buf)], true))
}
