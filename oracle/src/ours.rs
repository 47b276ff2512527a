//! Our side: the C functions of `include/picman.h`, from the static library, or a stand-in made of `papers`.

use crate::call::{Call, Reply, BAD_LINE};
use crate::image::{Entry, Image, Machine};
use crate::papers;

pub trait Ours {
    fn name(&self) -> &'static str;
    fn new_machine(&self, image: &mut [u8]) -> u8;
    fn call(&self, image: &mut [u8], call: &[u8], answer: &mut [u8]) -> u8;
    fn copy_refp(&self, image: &mut [u8], cnt: u64, lidx: u64, entry: &[u8]) -> u8;
    fn slice_depth(&self, length: u64, position: u64) -> u8;
    fn slice_depth_p(&self, length: u64, position: u64) -> u8;
}

/// The static library, where the build found it.
pub fn linked() -> Option<Box<dyn Ours>> {
    #[cfg(linked)]
    return Some(Box::new(library::Library));
    #[cfg(not(linked))]
    return None;
}

#[cfg(linked)]
mod library {
    use super::Ours;

    extern "C" {
        fn picman_new(image: *mut u8, len: usize) -> u8;
        fn picman_call(
            image: *mut u8,
            len: usize,
            call: *const u8,
            call_len: usize,
            answer: *mut u8,
            answer_len: usize,
        ) -> u8;
        fn picman_copy_refp(
            image: *mut u8,
            len: usize,
            cnt: u64,
            lidx: u64,
            entry: *const u8,
            entry_len: usize,
        ) -> u8;
        fn picman_slice_depth(length: u64, position: u64) -> u8;
        fn picman_slice_depth_p(length: u64, position: u64) -> u8;
    }

    pub struct Library;

    // Each pointer goes with the length of the slice it comes from, and the library keeps none of them.
    impl Ours for Library {
        fn name(&self) -> &'static str {
            "libpicman_ffi.a"
        }

        fn new_machine(&self, image: &mut [u8]) -> u8 {
            unsafe { picman_new(image.as_mut_ptr(), image.len()) }
        }

        fn call(&self, image: &mut [u8], call: &[u8], answer: &mut [u8]) -> u8 {
            unsafe {
                picman_call(
                    image.as_mut_ptr(),
                    image.len(),
                    call.as_ptr(),
                    call.len(),
                    answer.as_mut_ptr(),
                    answer.len(),
                )
            }
        }

        fn copy_refp(&self, image: &mut [u8], cnt: u64, lidx: u64, entry: &[u8]) -> u8 {
            unsafe { picman_copy_refp(image.as_mut_ptr(), image.len(), cnt, lidx, entry.as_ptr(), entry.len()) }
        }

        fn slice_depth(&self, length: u64, position: u64) -> u8 {
            unsafe { picman_slice_depth(length, position) }
        }

        fn slice_depth_p(&self, length: u64, position: u64) -> u8 {
            unsafe { picman_slice_depth_p(length, position) }
        }
    }
}

/// The specification behind the same functions: it tries the comparison itself while there is no library.
pub struct StandIn;

impl Ours for StandIn {
    fn name(&self) -> &'static str {
        "the stand-in (the specification in plain Rust; NOT our library)"
    }

    fn new_machine(&self, image: &mut [u8]) -> u8 {
        let Ok(image) = <&mut Image>::try_from(image) else {
            return BAD_LINE;
        };
        Machine::default().encode(image);
        0
    }

    fn call(&self, image: &mut [u8], call: &[u8], answer: &mut [u8]) -> u8 {
        let Some((image, mut machine)) = opened(image) else {
            return BAD_LINE;
        };
        let Ok(answer) = <&mut [u8; 8]>::try_from(answer) else {
            return BAD_LINE;
        };
        let reply = match Call::parse(call) {
            Some(call) => Reply::new(call.code(), papers::call(&mut machine, &call)),
            None => Reply::BAD,
        };
        machine.encode(image);
        *answer = reply.bytes();
        reply.status
    }

    fn copy_refp(&self, image: &mut [u8], cnt: u64, lidx: u64, entry: &[u8]) -> u8 {
        let entry = entry.try_into().ok().and_then(Entry::decode);
        let (Some((image, mut machine)), Some(entry)) = (opened(image), entry) else {
            return BAD_LINE;
        };
        let outcome = papers::copy::copy(&mut machine, cnt, lidx, &entry);
        machine.encode(image);
        outcome.err().unwrap_or(0)
    }

    fn slice_depth(&self, length: u64, position: u64) -> u8 {
        papers::depth::slice_depth(length, position).unwrap_or(0)
    }

    fn slice_depth_p(&self, length: u64, position: u64) -> u8 {
        papers::depth::slice_depth_p(length, position).unwrap_or(0)
    }
}

/// The image and its machine, if it is one.
fn opened(image: &mut [u8]) -> Option<(&mut Image, Machine)> {
    let image = <&mut Image>::try_from(image).ok()?;
    let machine = Machine::decode(image)?;
    Some((image, machine))
}
