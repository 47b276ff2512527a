//! The depth tables over a grid, and the derivation over every offset of a short group and the edges of long ones.

use crate::call::Call;
use crate::image::{Machine, Record};
use crate::judge::{Difference, Judge, Sides, Verdict};
use crate::original;
use crate::papers::{depth, MAX_POC};

/// What refusal 17 stands for in the original.
#[derive(Default)]
pub struct Depths {
    pub accepted: u64,
    pub panics: u64,
    pub filler: u64,
    pub added: u64,
}

pub fn depths(judge: &mut Judge) -> Verdict<Depths> {
    const FAR: [u64; 6] = [64, 1 << 16, 1 << 32, (1 << 32) + 2, 1 << 62, u64::MAX];
    let mut found = Depths::default();
    for length in (0..=40).chain(FAR) {
        for position in (0..=40).chain(FAR) {
            let ours = [judge.ours.slice_depth(length, position), judge.ours.slice_depth_p(length, position)];
            let rule = [depth::slice_depth(length, position), depth::slice_depth_p(length, position)];
            let rust = [original::slice_depth(length, position), original::slice_depth_p(length, position)];
            for i in 0..2 {
                same_depth(ours[i], rule[i], rust[i], &mut found).map_err(|why| {
                    Difference(format!("depth of length {length} at {position}, table {i}: {why}"))
                })?;
            }
        }
    }
    Ok(found)
}

fn same_depth(ours: u8, rule: Option<u8>, rust: Option<u8>, found: &mut Depths) -> Result<(), String> {
    match (rule, rust) {
        (Some(rule), rust) if rust == Some(rule) && ours == rule => found.accepted += 1,
        (None, None) if ours == 0 => found.panics += 1,
        (None, Some(0xff)) if ours == 0 => found.filler += 1,
        (None, Some(_)) if ours == 0 => found.added += 1,
        _ => return Err(format!("ours {ours}, the rule {rule:?}, the Rust {rust:?}")),
    }
    Ok(())
}

pub fn derivations(judge: &mut Judge, quick: bool) -> Verdict<()> {
    let all_up_to = if quick { 4 } else { 8 };
    for log2_length in 0..=16u8 {
        let length = 1i32 << log2_length;
        let offsets = if log2_length <= all_up_to { (0..length + 2).collect() } else { edges(log2_length) };
        for offset in offsets {
            for layer in 0..=log2_length + 1 {
                for previous in previous_numbers(length as u32) {
                    derivation(judge, log2_length, layer, previous, offset)?;
                }
            }
        }
    }
    Ok(())
}

/// Around each power of two, where a layer begins and ends, and around the ends of the range.
fn edges(log2_length: u8) -> Vec<i32> {
    let mut offsets: Vec<i32> = (1..=log2_length).flat_map(|k| [(1 << k) - 2, (1 << k) - 1, 1 << k]).collect();
    offsets.extend([-1, 32_766, 32_767, 32_768]);
    offsets.sort_unstable();
    offsets.dedup();
    offsets
}

fn previous_numbers(length: u32) -> [u32; 7] {
    [0, length, MAX_POC - length, MAX_POC - length + 1, MAX_POC - length / 2, MAX_POC, MAX_POC + 1]
}

fn derivation(judge: &mut Judge, log2_length: u8, layer: u8, previous: u32, offset: i32) -> Verdict<()> {
    let record = Record { poc_val: -7, prev_poc_val: previous, prev_doc_offset: offset };
    let mut sides = Sides::from_machine(&Machine { record, ..Machine::default() });
    judge.call(&mut sides, &Call::Derive { log2_length, layer }.bytes()).map(|_| ())
}
