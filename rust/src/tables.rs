//! The depth tables.

mod library {
    extern "C" {
        pub fn picman_slice_depth(length: u64, position: u64) -> u8;
        pub fn picman_slice_depth_p(length: u64, position: u64) -> u8;
    }
}

/// The depth at a position of a group with a hierarchy of B slices.
#[must_use]
pub fn slice_depth(length: u64, position: u64) -> Option<u8> {
    above_zero(unsafe { library::picman_slice_depth(length, position) })
}

/// The depth at a position of a group of P slices.
#[must_use]
pub fn slice_depth_p(length: u64, position: u64) -> Option<u8> {
    above_zero(unsafe { library::picman_slice_depth_p(length, position) })
}

fn above_zero(depth: u8) -> Option<u8> {
    (depth != 0).then_some(depth)
}
