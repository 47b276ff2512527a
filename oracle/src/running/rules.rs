//! When the arrays stand for a whole state: the specification's rules once more, on the bits of keys and registers alone.

use super::*;

pub const RULES: [&str; 10] = [
    "store size at most 27",
    "reference limit at most 21",
    "both list counts at most 21",
    "stored size equals the full slots",
    "stored reference count equals the marked slots",
    "an empty slot is 0",
    "an empty lease is 0",
    "buffer numbers in 0 to 26",
    "buffer numbers differ over slots and lease",
    "pictures' numbers at most 2,147,483,647",
];

pub fn rules(running: &Running) -> [bool; RULES.len()] {
    let Running { keys, registers, .. } = running;
    let lease = running.lease();
    let held = || keys.iter().copied().chain([lease]).filter(|key| key % 2 == 1);
    let buffers = held().fold(0u32, |seen, key| seen | 1 << (key >> 3 & 31));
    let full = keys.iter().filter(|key| **key % 2 == 1).count();
    let marked = keys.iter().filter(|key| **key % 4 == 3).count();
    [
        registers[MAX_PB_SIZE] <= 27,
        registers[MAX_NUM_REF_PICS] <= 21,
        registers[NUM_REFP] <= 21 && registers[NUM_REFP + 1] <= 21,
        registers[CUR_PB_SIZE] as usize == full,
        registers[CUR_NUM_REF_PICS] as usize == marked,
        keys.iter().all(|key| key % 2 == 1 || *key == 0),
        lease % 2 == 1 || lease == 0,
        held().all(|key| key >> 3 & 31 <= 26),
        buffers.count_ones() as usize == held().count(),
        held().all(|key| key >> 47 == 0),
    ]
}

pub fn whole(running: &Running) -> bool {
    rules(running).iter().all(|holds| *holds)
}
