//! Answer lines read, call lines written.

use crate::{BAD, NO_MORE};

/// The refusal of a buffer that is shorter than the line.
pub const NO_ROOM: u8 = 20;

/// Bytes of the longest call line, its newline counted.
pub const LONGEST_LINE: usize = 27;

/// The field bytes of an answer, and the record of a reading: these and the next place.
const FIELDS: usize = 7;
const READ: usize = 15;

mod library {
    extern "C" {
        pub fn picman_read_answer(lines: *const u8, len: usize, at: u64, record: *mut u8, record_len: usize)
            -> u8;
        pub fn picman_write_call(fields: *const u8, fields_len: usize, target: *mut u8, target_len: usize) -> u32;
    }
}

/// What a line of a buffer of answer lines is.
#[derive(Clone, Copy, Debug, PartialEq, Eq)]
pub enum Read {
    /// The seven field bytes: call, status, buffer number, value in four.
    Answer([u8; FIELDS]),
    /// No answer line: refusal 18, and the place of its first byte, counted from 0.
    Bad(u64),
}

/// The lines of a buffer, in order; it remembers how far it has come.
#[derive(Clone, Debug)]
#[must_use]
pub struct Answers<'a> {
    lines: &'a [u8],
    at: u64,
}

/// Reads a buffer of answer lines from its start.
pub fn answers(lines: &[u8]) -> Answers<'_> {
    answers_from(lines, 0)
}

/// Reads a buffer of answer lines from a place, counted from 0: a line begins there, also inside one.
pub fn answers_from(lines: &[u8], at: u64) -> Answers<'_> {
    Answers { lines, at }
}

impl Answers<'_> {
    /// Where the next line begins.
    #[must_use]
    pub fn place(&self) -> u64 {
        self.at
    }
}

impl Iterator for Answers<'_> {
    type Item = Read;

    fn next(&mut self) -> Option<Read> {
        let mut record = [0; READ];
        // Each pointer goes with the length of what it comes from, the two do not overlap, and the library keeps neither.
        let status = unsafe {
            library::picman_read_answer(self.lines.as_ptr(), self.lines.len(), self.at, record.as_mut_ptr(), READ)
        };
        let began = self.at;
        let [a, b, c, d, e, f, g, next @ ..] = record;
        self.at = u64::from_be_bytes(next);
        match status {
            0 => Some(Read::Answer([a, b, c, d, e, f, g])),
            BAD => Some(Read::Bad(began)),
            status => {
                debug_assert_eq!(status, NO_MORE);
                None
            }
        }
    }
}

/// At the end there is no more, however often it is asked.
impl std::iter::FusedIterator for Answers<'_> {}

/// Writes the line of a call, newline last, at the front of `target`, and gives its length, newline counted; the bytes behind
/// it stay. `fields` are the call byte and its fields. 18 where they are no call, a put with flags over 15 too, and then 20
/// where there is no room; neither writes anything.
pub fn write_call(fields: &[u8], target: &mut [u8]) -> Result<usize, u8> {
    // As above.
    let given =
        unsafe { library::picman_write_call(fields.as_ptr(), fields.len(), target.as_mut_ptr(), target.len()) };
    match given as u8 {
        0 => Ok((given >> 8) as usize),
        refusal => Err(refusal),
    }
}
