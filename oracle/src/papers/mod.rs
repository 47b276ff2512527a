//! The specification in plain Rust, by value and by its own words: which refusal each call gets,
//! and what it leaves.
//! Written from the papers and not from the original, which it is compared with wherever the original decides.

pub mod copy;
pub mod depth;
pub mod lists;
pub mod marking;
pub mod plan;
pub mod poc;
pub mod store;
pub mod whole;
pub mod why;

use crate::call::{Call, Outcome};
use crate::image::Machine;

/// The highest picture number.
pub const MAX_POC: u32 = 0x7fff_ffff;

/// One call. A call that is turned down leaves the machine as it was.
pub fn call(machine: &mut Machine, call: &Call) -> Outcome {
    match call {
        Call::Init { max_pb_size, max_num_ref_pics } => store::init(machine, *max_pb_size, *max_num_ref_pics),
        Call::Get => store::get(machine),
        Call::Put(put) => store::put(machine, put),
        Call::Out => store::out(machine),
        Call::Lists(request) => lists::lists(machine, request),
        Call::Derive { log2_length, layer } => poc::derive(&mut machine.record, *log2_length, *layer),
    }
}

/// Where the Rust decides: accepted calls, and those turned down with 1, 2 or 13, unless an old reference is met.
pub fn rust_decides(outcome: &Outcome, met_old: bool) -> bool {
    !met_old && matches!(outcome, Ok(_) | Err(1 | 2 | 13))
}

/// Whether a list call meets an old reference, with which the Rust never returns.
pub fn meets_old(machine: &Machine, call: &Call) -> bool {
    matches!(call, Call::Lists(request) if lists::meets_old(machine, request))
}
