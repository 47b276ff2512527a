//! The proved picture manager: safe types and functions over `include/picman.h`.
//!
//! [`Machine`] is the running machine, on which calls work in place. [`image`] holds the functions on a machine as 6,407
//! bytes, the form for exchange and comparison. Beside them stand the two depth tables, the group planner, [`plan`],
//! [`answers`], which reads answer lines, and [`write_call`], which writes call lines.

pub mod image;
mod lines;
mod machine;
mod plan;
mod tables;
mod why;

pub use lines::{answers, answers_from, write_call, Answers, Read, LONGEST_LINE, NO_ROOM};
pub use machine::{Answer, Entry, Machine, IDR, NO_PICTURE, REFERENCE, SLICE_B, SLICE_I, SLICE_P, WANTED};
pub use plan::{plan, PlanCall, PLAN, RECORD};
pub use tables::{slice_depth, slice_depth_p};
pub use why::Reason;

/// Bytes of an image, of an answer line and of an entry of an image.
pub const IMAGE: usize = 6407;
pub const ANSWER: usize = 8;
pub const ENTRY: usize = 90;

/// The refusal of a size, a flag byte or a call that does not fit.
pub const BAD: u8 = 18;

/// What an output comes to that hands over nothing: a picture is wanted and none is due; no picture is wanted.
pub const NOT_YET: u8 = 0x40;
pub const NO_MORE: u8 = 0x41;
