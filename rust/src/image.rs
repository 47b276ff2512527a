//! A machine as 6,407 bytes, big-endian: the form for exchange and comparison. Each function gives a status; a call that is
//! turned down, with a refusal's number, leaves the image as it was.

use crate::why::{self, Reason};
use crate::{ANSWER, ENTRY, IMAGE};

mod library {
    extern "C" {
        pub fn picman_new(image: *mut u8, len: usize) -> u8;
        pub fn picman_call(
            image: *mut u8,
            len: usize,
            call: *const u8,
            call_len: usize,
            answer: *mut u8,
            answer_len: usize,
        ) -> u8;
        pub fn picman_copy_refp(
            image: *mut u8,
            len: usize,
            cnt: u64,
            lidx: u64,
            entry: *const u8,
            entry_len: usize,
        ) -> u8;
    }
}

// Each pointer goes with the length of what it comes from, what may be written overlaps nothing else, and the library asks
// nothing more and keeps none of them.

/// Writes the new machine, whatever the image held: 0.
#[must_use]
pub fn new(image: &mut [u8; IMAGE]) -> u8 {
    unsafe { library::picman_new(image.as_mut_ptr(), IMAGE) }
}

/// One call: the bytes of a call line, check byte too, not in hex. Writes the answer and gives its status. Bytes that are no
/// call are answered with 18; where a flag byte of the image is neither 0 nor 1 it gives 18 too, and then the answer is not
/// written.
#[must_use]
pub fn call(image: &mut [u8; IMAGE], call: &[u8], answer: &mut [u8; ANSWER]) -> u8 {
    unsafe {
        library::picman_call(image.as_mut_ptr(), IMAGE, call.as_ptr(), call.len(), answer.as_mut_ptr(), ANSWER)
    }
}

/// Writes an entry at place `cnt` of list `lidx`: 0, 13 or 14, or 18 where a flag byte of the image or the entry is neither
/// 0 nor 1. Only 0 has written.
#[must_use]
pub fn copy_refp(image: &mut [u8; IMAGE], cnt: u64, lidx: u64, entry: &[u8; ENTRY]) -> u8 {
    unsafe { library::picman_copy_refp(image.as_mut_ptr(), IMAGE, cnt, lidx, entry.as_ptr(), ENTRY) }
}

/// Why the picture of a slot is or is not in the forward list of a list call, given by the bytes of its line, check byte too,
/// not in hex. The list call's refusals come first, then 14 where the slot is empty or missing; 18 where a flag byte of the
/// image is neither 0 nor 1 or the bytes are no list call.
pub fn why(image: &[u8; IMAGE], call: &[u8], slot: u8) -> Result<Reason, u8> {
    why::of_image(image, call, slot)
}
