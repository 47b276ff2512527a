//! Running machines of any bits: whole ones with something in what they leave open, ones that break one rule, flipped bits,
//! and chance.

use crate::papers::MAX_POC;
use crate::rng::Rng;
use crate::running::rules::{rules, RULES};
use crate::running::*;

use super::states::whole_state;

/// A whole one. What it leaves open holds anything: the rows of buffers that are not held, the upper bits of the heads, a
/// step over 255.
pub fn whole_arrays(rng: &mut Rng) -> Running {
    let mut arrays = Running::new();
    let any = rng.chance(128);
    if any {
        arrays.rows.iter_mut().for_each(|word| *word = rng.word());
    }
    assert!(arrays.write(&whole_state(rng)), "keys say every whole state");
    if any {
        arrays.rows[27 * 21..29 * 21].iter_mut().for_each(|head| *head |= (rng.word() & rng.word()) << 9);
        if arrays.registers[POC_INCREASE] == 255 {
            arrays.registers[POC_INCREASE] = over(rng, 254);
        }
    }
    arrays
}

/// A whole one made to break the rule. None where this one cannot be made to break it alone.
pub fn broken_arrays(rng: &mut Rng, whole: &Running, rule: usize) -> Option<Running> {
    let mut arrays = whole.clone();
    let registers = &mut arrays.registers;
    match rule {
        0 => registers[MAX_PB_SIZE] = over(rng, 27),
        1 => registers[MAX_NUM_REF_PICS] = over(rng, 21),
        2 => registers[NUM_REFP + rng.index(2)] = over(rng, 21),
        3 => registers[CUR_PB_SIZE] = other(rng, registers[CUR_PB_SIZE]),
        4 => registers[CUR_NUM_REF_PICS] = other(rng, registers[CUR_NUM_REF_PICS]),
        5 => *arrays.keys.iter_mut().rfind(|key| **key == 0)? = empty_but(rng),
        6 => arrays.set_lease(Some(arrays.lease()).filter(|lease| *lease == 0).map(|_| empty_but(rng))?),
        7 => with_buffer(rng, &mut arrays, None)?,
        8 => {
            let buffer = any_held(rng, &arrays).map(|at| key(&arrays, at) >> 3 & 31)?;
            with_buffer(rng, &mut arrays, Some(buffer))?;
        }
        _ => {
            let at = any_held(rng, &arrays)?;
            let changed = key(&arrays, at) | 1 << rng.pick(&[47, 48, 55, 62, 63]);
            set_key(&mut arrays, at, changed);
        }
    }
    let kept = rules(&arrays);
    let only_that = (0..RULES.len()).all(|other| kept[other] == (other != rule));
    only_that.then_some(arrays)
}

/// Now and then a number over 255 whose lowest byte would fit.
fn over(rng: &mut Rng, most: u32) -> u32 {
    let (any, hidden) =
        (rng.word() | 1 << 31, 256 * (1 + rng.below(9) as u32) + rng.below(u64::from(most) + 1) as u32);
    rng.pick(&[most + 1, most + 2, 255.max(most + 1), 256, hidden, hidden, any, u32::MAX])
}

fn other(rng: &mut Rng, count: u32) -> u32 {
    let any = rng.word();
    rng.pick(&[count.wrapping_add(1), count.wrapping_sub(1), count + 256, count + (1 << 16), count | 1 << 31, any])
}

/// A key that says empty and is not 0.
fn empty_but(rng: &mut Rng) -> u64 {
    let any = rng.draw();
    rng.pick(&[2, 4, 6, 1 << 3, 31 << 3, 1 << 8, 1 << 16, 1 << 46, 1 << 47, 1 << 63, any]) & !1
}

/// A slot, or 27 for the lease.
fn any_held(rng: &mut Rng, arrays: &Running) -> Option<usize> {
    let start = rng.index(28);
    (0..28).map(|i| (start + i) % 28).find(|at| key(arrays, *at) % 2 == 1)
}

fn key(arrays: &Running, at: usize) -> u64 {
    *arrays.keys.get(at).unwrap_or(&arrays.lease())
}

fn set_key(arrays: &mut Running, at: usize, key: u64) {
    match arrays.keys.get_mut(at) {
        Some(slot) => *slot = key,
        None => arrays.set_lease(key),
    }
}

/// Another picture gets this buffer number, or one over 26.
fn with_buffer(rng: &mut Rng, arrays: &mut Running, buffer: Option<u64>) -> Option<()> {
    let at = any_held(rng, arrays)?;
    let buffer = buffer.unwrap_or(27 + rng.below(5));
    let changed = key(arrays, at) & !(31 << 3) | buffer << 3;
    set_key(arrays, at, changed);
    Some(())
}

/// Flipped bits: in the keys, in the registers or in the rows.
pub fn flipped_arrays(rng: &mut Rng, whole: &Running) -> Running {
    let mut arrays = whole.clone();
    for _ in 0..rng.pick(&[1, 1, 2, 5]) {
        match rng.below(4) {
            0 | 1 => arrays.keys[rng.index(27)] ^= 1 << rng.below(64),
            2 => arrays.registers[rng.index(REGISTERS)] ^= 1 << rng.below(32),
            _ => arrays.rows[rng.index(ROWS)] ^= 1 << rng.below(32),
        }
    }
    arrays
}

/// Chance: all of it, or the keys, or the registers.
pub fn chance_arrays(rng: &mut Rng, whole: &Running) -> Running {
    let mut arrays = whole.clone();
    let what = rng.below(4);
    if what != 1 {
        // Sparse ones too: a word of chance has half of its bits set.
        let sparse = rng.chance(128);
        arrays
            .keys
            .iter_mut()
            .for_each(|key| *key = rng.draw() & if sparse { rng.draw() & rng.draw() } else { !0 });
    }
    if what != 2 {
        let most = rng.pick(&[3, 28, 256, u64::from(u32::MAX) + 1]);
        arrays.registers.iter_mut().for_each(|register| *register = rng.below(most) as u32);
    }
    if what == 0 {
        arrays.rows.iter_mut().for_each(|word| *word = rng.word());
    }
    arrays
}

/// Numbers at the edge of what a picture may have, in keys that are whole otherwise.
pub fn edge_arrays(rng: &mut Rng, whole: &Running) -> Running {
    let mut arrays = whole.clone();
    for key in arrays.keys.iter_mut().filter(|key| **key % 2 == 1) {
        let number = u64::from(rng.pick(&[0, 1, MAX_POC - 1, MAX_POC, MAX_POC, MAX_POC]));
        *key = *key & 0xffff | number << 16;
    }
    arrays
}
