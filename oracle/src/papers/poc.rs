//! "Picture number": the derivation in whole numbers, with no float and no search.

use super::MAX_POC;
use crate::call::{Answer, Outcome};
use crate::image::Record;

const MAX_LOG2: u8 = 15;
const MAX_DOC_OFFSET: i32 = 32_767;

pub fn derive(record: &mut Record, log2_length: u8, layer: u8) -> Outcome {
    if log2_length > MAX_LOG2 || layer > log2_length {
        return Err(15);
    }
    if bad_record(record) {
        return Err(16);
    }
    let length = 1i64 << log2_length;
    let mut previous = i64::from(record.prev_poc_val);
    let (number, offset) = if layer == 0 {
        previous += length;
        (previous, 0)
    } else {
        let next = (i64::from(record.prev_doc_offset) + 1) % length;
        if next == 0 {
            previous += length;
        }
        let offset = offset_in_layer(next, layer);
        (previous + number_in_group(log2_length, layer, offset), offset)
    };
    if number > i64::from(MAX_POC) || previous > i64::from(MAX_POC) {
        return Err(6);
    }
    *record = Record { poc_val: number as i32, prev_poc_val: previous as u32, prev_doc_offset: offset as i32 };
    Ok(Answer::Number(number as i32))
}

pub fn bad_record(record: &Record) -> bool {
    record.prev_poc_val > MAX_POC || !(0..=MAX_DOC_OFFSET).contains(&record.prev_doc_offset)
}

/// The offsets of layer t are 2^(t-1) to 2^t - 1. Stepping on from `next` stays there, or comes to the first of
/// them, past the wrap or not.
fn offset_in_layer(next: i64, layer: u8) -> i64 {
    let first = 1i64 << (layer - 1);
    if (first..2 * first).contains(&next) {
        next
    } else {
        first
    }
}

/// (2(d - 2^(t-1)) + 1) × 2^(L-t) - 2^L.
fn number_in_group(log2_length: u8, layer: u8, offset: i64) -> i64 {
    let first = 1i64 << (layer - 1);
    (2 * (offset - first) + 1) * (1 << (log2_length - layer)) - (1 << log2_length)
}
