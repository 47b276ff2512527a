//! The group planner in plain Rust, by the specification's words: a plan with the record after it, or the refusal.

use super::{depth, poc, MAX_POC};
use crate::call::Answer;
use crate::image::Record;

/// What the planner is asked, but for the record.
#[derive(Clone, Copy, Debug, PartialEq)]
pub struct PlanCall {
    pub count: u64,
    pub length: u64,
    pub interval: u64,
    pub inter: u8,
    pub hierarchy: bool,
}

/// Slice types as bytes: 1 is I, 2 P and 3 B.
#[derive(Clone, Copy, Debug, PartialEq)]
pub struct Plan {
    pub slice_type: u8,
    pub depth: u8,
    pub reference: bool,
    pub number: i32,
}

pub const I: u8 = 1;
pub const P: u8 = 2;
pub const B: u8 = 3;

impl PlanCall {
    /// Every multiple of the interval; without one, the first picture.
    pub fn is_key(&self) -> bool {
        if self.interval == 0 {
            self.count == 0
        } else {
            self.count % self.interval == 0
        }
    }

    /// Whether the Rust subtracts below zero; the length is a group's.
    pub fn below_zero(&self) -> bool {
        !self.hierarchy && self.count < self.length && self.count % self.length != 0 && !self.is_key()
    }
}

pub fn plan(call: &PlanCall, record: &mut Record) -> Result<Plan, u8> {
    let PlanCall { count, length, inter, hierarchy, .. } = *call;
    if ![2, 4, 8, 16].contains(&length) {
        return Err(17);
    }
    if ![P, B].contains(&inter) || count > u64::from(MAX_POC) || call.below_zero() {
        return Err(19);
    }
    let place = count % length;
    if call.is_key() || place == 0 {
        let number = count as i32;
        *record = Record { poc_val: number, prev_poc_val: count as u32, prev_doc_offset: 0 };
        let (slice_type, depth) = if call.is_key() { (I, 0) } else { (inter, 1) };
        return Ok(Plan { slice_type, depth, reference: true, number });
    }
    if !hierarchy {
        let number = (count - length) as i32;
        record.poc_val = number;
        return Ok(Plan { slice_type: inter, depth: 2, reference: false, number });
    }
    let depth = depth::slice_depth(length, place - 1).ok_or(17)?;
    let last = depth::slice_depth(length, length - 2).ok_or(17)?;
    match poc::derive(record, length.ilog2() as u8, depth - 1)? {
        Answer::Number(number) => Ok(Plan { slice_type: inter, depth, reference: depth != last, number }),
        other => unreachable!("a derivation answers {other:?}"),
    }
}
