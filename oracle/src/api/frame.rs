//! Stands in for revc's `api/frame.rs`: the samples stay behind a buffer number, so a frame is just that.

use super::ChromaSampling;
use std::marker::PhantomData;

/// What a frame has before it is given a number.
pub const NO_BUFFER: u8 = 255;

pub struct Frame<T> {
    pub buffer: u8,
    samples: PhantomData<T>,
}

impl<T> Frame<T> {
    pub fn new(_width: usize, _height: usize, _chroma_sampling: ChromaSampling) -> Self {
        Self { buffer: NO_BUFFER, samples: PhantomData }
    }
}

/// Only because `EvcPic` derives it.
impl<T> Default for Frame<T> {
    fn default() -> Self {
        Self { buffer: NO_BUFFER, samples: PhantomData }
    }
}
