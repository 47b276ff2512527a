//! Calls and replies as bytes: the fields of the specification's call lines, check byte last.

/// Refusal 18: the bytes are no call.
pub const BAD_LINE: u8 = 18;
pub const NOT_YET: u8 = 0x40;
pub const NO_MORE: u8 = 0x41;

#[derive(Clone, Copy, Debug, PartialEq)]
pub struct Put {
    /// 1 IDR, 2 wanted for output, 4 reference, 8 no picture.
    pub flags: u8,
    pub poc: u32,
    pub temporal_id: u8,
    pub gap: u32,
}

impl Put {
    pub const IDR: u8 = 1;
    pub const WANTED: u8 = 2;
    pub const REFERENCE: u8 = 4;
    pub const NO_PICTURE: u8 = 8;

    pub fn has(&self, flag: u8) -> bool {
        self.flags & flag != 0
    }
}

#[derive(Clone, Copy, Debug, PartialEq)]
pub struct Lists {
    pub slice_type: u8,
    pub poc: u32,
    pub layer: u8,
    pub last_intra: i32,
    pub limit: u8,
}

#[derive(Clone, Copy, Debug, PartialEq)]
pub enum Call {
    Init { max_pb_size: u8, max_num_ref_pics: u8 },
    Get,
    Put(Put),
    Out,
    Lists(Lists),
    Derive { log2_length: u8, layer: u8 },
}

/// At most 13 bytes, kept without an allocation.
#[derive(Clone, Copy)]
pub struct CallBytes {
    bytes: [u8; 13],
    len: usize,
}

impl CallBytes {
    fn new() -> Self {
        Self { bytes: [0; 13], len: 0 }
    }

    fn with(mut self, more: &[u8]) -> Self {
        self.bytes[self.len..self.len + more.len()].copy_from_slice(more);
        self.len += more.len();
        self
    }
}

impl std::ops::Deref for CallBytes {
    type Target = [u8];

    fn deref(&self) -> &[u8] {
        &self.bytes[..self.len]
    }
}

impl Call {
    /// None: the bytes are no call.
    #[inline]
    pub fn parse(bytes: &[u8]) -> Option<Call> {
        if sum(bytes) != 0 {
            return None;
        }
        match *bytes {
            [1, max_pb_size, max_num_ref_pics, _] => Some(Call::Init { max_pb_size, max_num_ref_pics }),
            [2, _] => Some(Call::Get),
            [3, flags, a, b, c, d, temporal_id, e, f, g, h, _] if flags <= 15 => Some(Call::Put(Put {
                flags,
                poc: u32::from_be_bytes([a, b, c, d]),
                temporal_id,
                gap: u32::from_be_bytes([e, f, g, h]),
            })),
            [4, _] => Some(Call::Out),
            [5, slice_type, a, b, c, d, layer, e, f, g, h, limit, _] => Some(Call::Lists(Lists {
                slice_type,
                poc: u32::from_be_bytes([a, b, c, d]),
                layer,
                last_intra: i32::from_be_bytes([e, f, g, h]),
                limit,
            })),
            [6, log2_length, layer, _] => Some(Call::Derive { log2_length, layer }),
            _ => None,
        }
    }

    pub fn bytes(&self) -> CallBytes {
        let fields = CallBytes::new().with(&[self.code()]);
        let fields = match self {
            Call::Init { max_pb_size, max_num_ref_pics } => fields.with(&[*max_pb_size, *max_num_ref_pics]),
            Call::Get | Call::Out => fields,
            Call::Put(put) => fields
                .with(&[put.flags])
                .with(&put.poc.to_be_bytes())
                .with(&[put.temporal_id])
                .with(&put.gap.to_be_bytes()),
            Call::Lists(lists) => fields
                .with(&[lists.slice_type])
                .with(&lists.poc.to_be_bytes())
                .with(&[lists.layer])
                .with(&lists.last_intra.to_be_bytes())
                .with(&[lists.limit]),
            Call::Derive { log2_length, layer } => fields.with(&[*log2_length, *layer]),
        };
        fields.with(&[sum(&fields).wrapping_neg()])
    }

    #[inline]
    pub fn code(&self) -> u8 {
        match self {
            Call::Init { .. } => 1,
            Call::Get => 2,
            Call::Put(_) => 3,
            Call::Out => 4,
            Call::Lists(_) => 5,
            Call::Derive { .. } => 6,
        }
    }
}

/// What a call comes to, apart from what it leaves behind.
#[derive(Clone, Copy, Debug, PartialEq)]
pub enum Answer {
    Done,
    Picture { buf: u8, poc: u32 },
    NotYet,
    NoMore,
    Counts(u8, u8),
    Number(i32),
}

/// An answer or the number of a refusal.
pub type Outcome = Result<Answer, u8>;

/// An answer line, without its check byte.
#[derive(Clone, Copy, Debug, PartialEq)]
pub struct Reply {
    pub code: u8,
    pub status: u8,
    pub buf: u8,
    pub value: u32,
}

impl Reply {
    pub const BAD: Reply = Reply { code: 0, status: BAD_LINE, buf: 0xff, value: 0 };

    #[inline]
    pub fn new(code: u8, outcome: Outcome) -> Reply {
        let (status, buf, value) = match outcome {
            Ok(Answer::Done) => (0, 0xff, 0),
            Ok(Answer::Picture { buf, poc }) => (0, buf, poc),
            Ok(Answer::NotYet) => (NOT_YET, 0xff, 0),
            Ok(Answer::NoMore) => (NO_MORE, 0xff, 0),
            Ok(Answer::Counts(forward, backward)) => (0, 0xff, u32::from(forward) * 256 + u32::from(backward)),
            Ok(Answer::Number(number)) => (0, 0xff, number as u32),
            Err(refusal) => (refusal, 0xff, 0),
        };
        Reply { code, status, buf, value }
    }

    #[inline]
    pub fn bytes(&self) -> [u8; 8] {
        let [a, b, c, d] = self.value.to_be_bytes();
        let fields = [self.code, self.status, self.buf, a, b, c, d, 0];
        [self.code, self.status, self.buf, a, b, c, d, sum(&fields).wrapping_neg()]
    }
}

#[inline]
fn sum(bytes: &[u8]) -> u8 {
    bytes.iter().fold(0, |sum, byte| sum.wrapping_add(*byte))
}
