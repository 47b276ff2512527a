//! Lines of hex pairs, as the program reads and writes them.

use crate::call::{Call, Reply};

/// The longest call has 13 bytes.
const LONGEST: usize = 13;

/// The value of each digit; 255 for what is none.
const DIGITS: [u8; 256] = {
    let mut values = [255; 256];
    let mut i = 0;
    while i < 10 {
        values[b'0' as usize + i] = i as u8;
        i += 1;
    }
    while i < 16 {
        values[b'a' as usize + i - 10] = i as u8;
        i += 1;
    }
    values
};

/// The bytes of a line without its newline. None: not lower-case hex pairs.
pub fn bytes_of(line: &[u8]) -> Option<Vec<u8>> {
    let mut bytes = vec![0; line.len() / 2];
    fill(line, &mut bytes).then_some(bytes)
}

/// The call on a line without its newline. None: a bad line.
#[inline]
pub fn call_of(line: &[u8]) -> Option<Call> {
    let mut bytes = [0; LONGEST];
    let len = line.len() / 2;
    if len > LONGEST || !fill(line, &mut bytes[..len]) {
        return None;
    }
    Call::parse(&bytes[..len])
}

/// True where the line is pairs of digits, one for each byte.
#[inline]
fn fill(line: &[u8], bytes: &mut [u8]) -> bool {
    if !line.len().is_multiple_of(2) {
        return false;
    }
    let mut fits = true;
    for (byte, pair) in bytes.iter_mut().zip(line.chunks_exact(2)) {
        let (high, low) = (DIGITS[usize::from(pair[0])], DIGITS[usize::from(pair[1])]);
        fits &= high < 16 && low < 16;
        *byte = high << 4 | low & 15;
    }
    fits
}

/// A line with its newline.
pub fn push_line(out: &mut Vec<u8>, bytes: &[u8]) {
    for byte in bytes {
        out.push(digit(byte >> 4));
        out.push(digit(byte & 15));
    }
    out.push(b'\n');
}

/// The answer line of a reply, with its newline.
#[inline]
pub fn answer_line(reply: &Reply) -> [u8; 17] {
    let mut line = [b'\n'; 17];
    for (pair, byte) in line.chunks_exact_mut(2).zip(reply.bytes()) {
        pair[0] = digit(byte >> 4);
        pair[1] = digit(byte & 15);
    }
    line
}

#[inline]
fn digit(value: u8) -> u8 {
    b"0123456789abcdef"[usize::from(value)]
}
