//! "Constants and depth rows": the rule of each row. None is refusal 17.

/// `tbl_slice_depth`: 2 + floor(log2(j + 1)), j from 0 to 2^k - 2.
pub fn slice_depth(length: u64, position: u64) -> Option<u8> {
    log2_of(length)?;
    (position < length - 1).then(|| 2 + (position + 1).ilog2() as u8)
}

/// `tbl_slice_depth_P`: 1 + k - (trailing zero bits of j + 1), j from 0 to 2^k - 1.
pub fn slice_depth_p(length: u64, position: u64) -> Option<u8> {
    let k = log2_of(length)?;
    (position < length).then(|| 1 + k - (position + 1).trailing_zeros() as u8)
}

/// k for a length 2^k with k from 1 to 4.
fn log2_of(length: u64) -> Option<u8> {
    matches!(length, 2 | 4 | 8 | 16).then(|| length.trailing_zeros() as u8)
}
