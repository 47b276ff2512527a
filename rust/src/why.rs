//! Why a picture is or is not in the forward list that a list call builds. Nothing changes: neither state nor lists.

use crate::IMAGE;

const BYTES: usize = 2;

mod library {
    extern "C" {
        pub fn picman_why(
            image: *const u8,
            len: usize,
            call: *const u8,
            call_len: usize,
            slot: u8,
            reason: *mut u8,
            reason_len: usize,
        ) -> u8;
        pub fn picman_machine_why(
            k: *const u64,
            kn: usize,
            w: *const u32,
            wn: usize,
            r: *const u32,
            rn: usize,
            call: *const u8,
            call_len: usize,
            slot: u8,
            reason: *mut u8,
            reason_len: usize,
        ) -> u8;
    }
}

/// The earliest of these that holds, but for the last, which slice I alone gets.
#[derive(Clone, Copy, Debug, PartialEq, Eq)]
pub enum Reason {
    /// Taken, at this place of the forward list, counted from 0.
    Taken(u8),
    NotMarked,
    /// The list was full before the picture's turn.
    Full,
    Old,
    /// The number is the current one.
    SameNumber,
    /// On a side that the slice type does not take.
    OtherSide,
    /// The layer was over the bound at the picture's turn.
    LayerOverBound,
    NoListAsked,
}

impl Reason {
    fn new([number, place]: [u8; BYTES]) -> Reason {
        match number {
            0 => Reason::Taken(place),
            1 => Reason::NotMarked,
            2 => Reason::Full,
            3 => Reason::Old,
            4 => Reason::SameNumber,
            5 => Reason::OtherSide,
            6 => Reason::LayerOverBound,
            _ => Reason::NoListAsked,
        }
    }
}

// Each pointer goes with the length of what it comes from, what may be written overlaps nothing else, and the library asks
// nothing more and keeps none of them.

pub(crate) fn of_image(image: &[u8; IMAGE], call: &[u8], slot: u8) -> Result<Reason, u8> {
    let mut reason = [0; BYTES];
    let (at, out) = (image.as_ptr(), reason.as_mut_ptr());
    let status = unsafe { library::picman_why(at, IMAGE, call.as_ptr(), call.len(), slot, out, BYTES) };
    told(status, reason)
}

pub(crate) fn of_arrays(
    keys: &[u64],
    rows: &[u32],
    registers: &[u32],
    call: &[u8],
    slot: u8,
) -> Result<Reason, u8> {
    let mut reason = [0; BYTES];
    let status = unsafe {
        library::picman_machine_why(
            keys.as_ptr(),
            keys.len(),
            rows.as_ptr(),
            rows.len(),
            registers.as_ptr(),
            registers.len(),
            call.as_ptr(),
            call.len(),
            slot,
            reason.as_mut_ptr(),
            BYTES,
        )
    };
    told(status, reason)
}

fn told(status: u8, reason: [u8; BYTES]) -> Result<Reason, u8> {
    if status == 0 {
        Ok(Reason::new(reason))
    } else {
        Err(status)
    }
}
