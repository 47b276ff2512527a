//! Our answer to the question why: `picman_why` and `picman_machine_why` of the static library, or a stand-in made of `papers`.

use crate::call::{Call, BAD_LINE};
use crate::image::{Image, Machine};
use crate::papers;
use crate::running::{rules, Running};

pub const REASON_BYTES: usize = 2;

pub trait OursWhy {
    fn of_image(&self, image: &[u8], call: &[u8], slot: u8, reason: &mut [u8]) -> u8;
    fn of_arrays(
        &self,
        keys: &[u64],
        rows: &[u32],
        registers: &[u32],
        call: &[u8],
        slot: u8,
        reason: &mut [u8],
    ) -> u8;
}

/// The static library, where the build found it.
pub fn linked() -> Option<Box<dyn OursWhy>> {
    #[cfg(linked)]
    return Some(Box::new(library::Library));
    #[cfg(not(linked))]
    return None;
}

#[cfg(linked)]
mod library {
    use super::OursWhy;

    extern "C" {
        fn picman_why(
            image: *const u8,
            len: usize,
            call: *const u8,
            call_len: usize,
            slot: u8,
            reason: *mut u8,
            reason_len: usize,
        ) -> u8;
        fn picman_machine_why(
            keys: *const u64,
            keys_len: usize,
            rows: *const u32,
            rows_len: usize,
            registers: *const u32,
            registers_len: usize,
            call: *const u8,
            call_len: usize,
            slot: u8,
            reason: *mut u8,
            reason_len: usize,
        ) -> u8;
    }

    pub struct Library;

    // Each pointer goes with the length of the slice it comes from, and the library keeps none of them.
    impl OursWhy for Library {
        fn of_image(&self, image: &[u8], call: &[u8], slot: u8, reason: &mut [u8]) -> u8 {
            unsafe {
                picman_why(
                    image.as_ptr(),
                    image.len(),
                    call.as_ptr(),
                    call.len(),
                    slot,
                    reason.as_mut_ptr(),
                    reason.len(),
                )
            }
        }

        fn of_arrays(
            &self,
            keys: &[u64],
            rows: &[u32],
            registers: &[u32],
            call: &[u8],
            slot: u8,
            reason: &mut [u8],
        ) -> u8 {
            unsafe {
                picman_machine_why(
                    keys.as_ptr(),
                    keys.len(),
                    rows.as_ptr(),
                    rows.len(),
                    registers.as_ptr(),
                    registers.len(),
                    call.as_ptr(),
                    call.len(),
                    slot,
                    reason.as_mut_ptr(),
                    reason.len(),
                )
            }
        }
    }
}

/// Document 02 behind the same functions: it tries the comparison itself.
pub struct StandIn;

impl OursWhy for StandIn {
    fn of_image(&self, image: &[u8], call: &[u8], slot: u8, reason: &mut [u8]) -> u8 {
        let machine = <&Image>::try_from(image).ok().and_then(Machine::decode);
        answered(machine, call, slot, reason)
    }

    fn of_arrays(
        &self,
        keys: &[u64],
        rows: &[u32],
        registers: &[u32],
        call: &[u8],
        slot: u8,
        reason: &mut [u8],
    ) -> u8 {
        let (Ok(keys), Ok(rows), Ok(registers)) = (keys.try_into(), rows.try_into(), registers.try_into()) else {
            return BAD_LINE;
        };
        let running = Running { keys, rows, registers };
        let fits = reason.len() == REASON_BYTES && matches!(Call::parse(call), Some(Call::Lists(_)));
        if fits && !rules::whole(&running) {
            return 7;
        }
        answered(Some(running.stands()), call, slot, reason)
    }
}

fn answered(machine: Option<Machine>, call: &[u8], slot: u8, reason: &mut [u8]) -> u8 {
    let (Some(machine), Some(Call::Lists(request))) = (machine, Call::parse(call)) else {
        return BAD_LINE;
    };
    let Ok(reason) = <&mut [u8; REASON_BYTES]>::try_from(reason) else {
        return BAD_LINE;
    };
    match papers::why::why(&machine, &request, slot) {
        Ok(told) => {
            *reason = told.bytes();
            0
        }
        Err(refusal) => refusal,
    }
}
