//! Our planner: `picman_plan` of the static library, or the stand-in made of `papers`.

use crate::image::Record;
use crate::papers::plan::{plan, PlanCall};

pub const RECORD_BYTES: usize = 12;
pub const PLAN_BYTES: usize = 7;

/// The bytes that are lent, and a byte for the hierarchy that may be any.
pub type Planner = fn(call: &PlanCall, hierarchy: u8, record: &mut [u8], plan: &mut [u8]) -> u8;

/// The static library, where the build found it.
pub fn linked() -> Option<Planner> {
    #[cfg(linked)]
    return Some(library::planned);
    #[cfg(not(linked))]
    return None;
}

#[cfg(linked)]
mod library {
    use super::PlanCall;

    extern "C" {
        fn picman_plan(
            count: u64,
            length: u64,
            interval: u64,
            inter: u8,
            hierarchy: u8,
            record: *mut u8,
            record_len: usize,
            plan: *mut u8,
            plan_len: usize,
        ) -> u8;
    }

    // Each pointer goes with the length of the slice it comes from, and the library keeps none of them.
    pub fn planned(call: &PlanCall, hierarchy: u8, record: &mut [u8], plan: &mut [u8]) -> u8 {
        let PlanCall { count, length, interval, inter, .. } = *call;
        unsafe {
            picman_plan(
                count,
                length,
                interval,
                inter,
                hierarchy,
                record.as_mut_ptr(),
                record.len(),
                plan.as_mut_ptr(),
                plan.len(),
            )
        }
    }
}

/// Document 02 behind the same function: it tries the comparison itself.
pub fn stand_in(call: &PlanCall, hierarchy: u8, record: &mut [u8], plan_bytes: &mut [u8]) -> u8 {
    let (Ok(record), Ok(plan_bytes)) =
        (<&mut [u8; RECORD_BYTES]>::try_from(record), <&mut [u8; PLAN_BYTES]>::try_from(plan_bytes))
    else {
        return 18;
    };
    if hierarchy > 1 {
        return 18;
    }
    let mut after = record_of(record);
    match plan(&PlanCall { hierarchy: hierarchy == 1, ..*call }, &mut after) {
        Ok(planned) => {
            *record = record_bytes(&after);
            *plan_bytes = super::runs::plans::plan_bytes(&planned);
            0
        }
        Err(refusal) => refusal,
    }
}

pub fn record_bytes(record: &Record) -> [u8; RECORD_BYTES] {
    let mut bytes = [0; RECORD_BYTES];
    bytes[..4].copy_from_slice(&record.poc_val.to_be_bytes());
    bytes[4..8].copy_from_slice(&record.prev_poc_val.to_be_bytes());
    bytes[8..].copy_from_slice(&record.prev_doc_offset.to_be_bytes());
    bytes
}

fn record_of(bytes: &[u8; RECORD_BYTES]) -> Record {
    let word = |at: usize| [bytes[at], bytes[at + 1], bytes[at + 2], bytes[at + 3]];
    Record {
        poc_val: i32::from_be_bytes(word(0)),
        prev_poc_val: u32::from_be_bytes(word(4)),
        prev_doc_offset: i32::from_be_bytes(word(8)),
    }
}
