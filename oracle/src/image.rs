//! The image of a machine: 6,407 bytes, big-endian, and the same by value.

pub const SLOTS: usize = 27;
pub const PLACES: usize = 21;
pub const LISTS: usize = 2;

const SLOT_BYTES: usize = 9 + 4 * PLACES;
pub const ENTRY_BYTES: usize = 6 + 4 * PLACES;
const LISTS_AT: usize = (SLOTS + 1) * SLOT_BYTES + 11;
const RECORD_AT: usize = LISTS_AT + LISTS * PLACES * ENTRY_BYTES;
/// The bytes of the picture manager's state; lists and record follow.
pub const STATE_BYTES: usize = LISTS_AT;
pub const IMAGE_BYTES: usize = RECORD_AT + 12;

pub type Image = [u8; IMAGE_BYTES];

/// A slot or the lease.
#[derive(Clone, Copy, Debug, Default, PartialEq)]
pub struct Slot {
    pub present: bool,
    pub buf: u8,
    pub is_ref: bool,
    pub need_for_out: bool,
    pub temporal_id: u8,
    pub poc: u32,
    pub list_poc: [u32; PLACES],
}

impl Slot {
    pub fn marked(&self) -> bool {
        self.present && self.is_ref
    }

    pub fn wanted(&self) -> bool {
        self.present && self.need_for_out
    }
}

/// A place of a reference list.
#[derive(Clone, Copy, Debug, Default, PartialEq)]
pub struct Entry {
    pub present: bool,
    pub buf: u8,
    pub poc: u32,
    pub list_poc: [u32; PLACES],
}

#[derive(Clone, Copy, Debug, Default, PartialEq)]
pub struct Record {
    pub poc_val: i32,
    pub prev_poc_val: u32,
    pub prev_doc_offset: i32,
}

/// State, lists and record.
#[derive(Clone, Debug, Default, PartialEq)]
pub struct Machine {
    pub pic: [Slot; SLOTS],
    pub lease: Slot,
    pub max_pb_size: u8,
    pub max_num_ref_pics: u8,
    pub cur_pb_size: u8,
    pub cur_num_ref_pics: u8,
    pub num_refp: [u8; LISTS],
    pub poc_next_output: u32,
    pub poc_increase: u8,
    pub refp: [[Entry; PLACES]; LISTS],
    pub record: Record,
}

impl Machine {
    pub fn occupied(&self) -> usize {
        self.pic.iter().filter(|slot| slot.present).count()
    }

    pub fn marked(&self) -> usize {
        self.pic.iter().filter(|slot| slot.marked()).count()
    }

    /// Whether the Rust can hold these lists; a whole state it can.
    pub fn lists_in_rust(&self) -> bool {
        self.refp.iter().flatten().all(Entry::in_rust)
    }

    /// None where a flag byte is neither 0 nor 1.
    pub fn decode(image: &Image) -> Option<Machine> {
        let mut bytes = Reader { bytes: image, flags_fit: true };
        let machine = Machine {
            pic: std::array::from_fn(|_| bytes.slot()),
            lease: bytes.slot(),
            max_pb_size: bytes.byte(),
            max_num_ref_pics: bytes.byte(),
            cur_pb_size: bytes.byte(),
            cur_num_ref_pics: bytes.byte(),
            num_refp: [bytes.byte(), bytes.byte()],
            poc_next_output: bytes.word(),
            poc_increase: bytes.byte(),
            refp: std::array::from_fn(|_| std::array::from_fn(|_| bytes.entry())),
            record: bytes.record(),
        };
        bytes.flags_fit.then_some(machine)
    }

    pub fn encode(&self, image: &mut Image) {
        let mut out = Writer { rest: image };
        self.pic.iter().for_each(|slot| out.slot(slot));
        out.slot(&self.lease);
        for byte in [self.max_pb_size, self.max_num_ref_pics, self.cur_pb_size, self.cur_num_ref_pics] {
            out.byte(byte);
        }
        self.num_refp.iter().for_each(|count| out.byte(*count));
        out.word(self.poc_next_output);
        out.byte(self.poc_increase);
        self.refp.iter().flatten().for_each(|entry| out.entry(entry));
        out.record(&self.record);
    }
}

impl Entry {
    /// The Rust has no entry that holds no picture and yet a buffer number.
    pub fn in_rust(&self) -> bool {
        self.present || self.buf == 0
    }

    /// None where the flag byte is neither 0 nor 1.
    pub fn decode(bytes: &[u8; ENTRY_BYTES]) -> Option<Entry> {
        let mut bytes = Reader { bytes, flags_fit: true };
        let entry = bytes.entry();
        bytes.flags_fit.then_some(entry)
    }

    pub fn encode(&self) -> [u8; ENTRY_BYTES] {
        let mut bytes = [0; ENTRY_BYTES];
        Writer { rest: &mut bytes }.entry(self);
        bytes
    }
}

struct Reader<'a> {
    bytes: &'a [u8],
    flags_fit: bool,
}

impl Reader<'_> {
    fn byte(&mut self) -> u8 {
        let (first, rest) = self.bytes.split_first().unwrap();
        self.bytes = rest;
        *first
    }

    fn flag(&mut self) -> bool {
        let byte = self.byte();
        self.flags_fit &= byte <= 1;
        byte == 1
    }

    fn word(&mut self) -> u32 {
        let (first, rest) = self.bytes.split_first_chunk().unwrap();
        self.bytes = rest;
        u32::from_be_bytes(*first)
    }

    fn words(&mut self) -> [u32; PLACES] {
        let (first, rest) = self.bytes.split_first_chunk::<{ 4 * PLACES }>().unwrap();
        self.bytes = rest;
        let (words, _) = first.as_chunks::<4>();
        std::array::from_fn(|i| u32::from_be_bytes(words[i]))
    }

    fn slot(&mut self) -> Slot {
        Slot {
            present: self.flag(),
            buf: self.byte(),
            is_ref: self.flag(),
            need_for_out: self.flag(),
            temporal_id: self.byte(),
            poc: self.word(),
            list_poc: self.words(),
        }
    }

    fn entry(&mut self) -> Entry {
        Entry { present: self.flag(), buf: self.byte(), poc: self.word(), list_poc: self.words() }
    }

    fn record(&mut self) -> Record {
        Record { poc_val: self.word() as i32, prev_poc_val: self.word(), prev_doc_offset: self.word() as i32 }
    }
}

struct Writer<'a> {
    rest: &'a mut [u8],
}

impl Writer<'_> {
    fn put<const N: usize>(&mut self, bytes: [u8; N]) {
        let (first, rest) = std::mem::take(&mut self.rest).split_first_chunk_mut().unwrap();
        *first = bytes;
        self.rest = rest;
    }

    fn byte(&mut self, byte: u8) {
        self.put([byte]);
    }

    fn word(&mut self, word: u32) {
        self.put(word.to_be_bytes());
    }

    fn words(&mut self, words: &[u32; PLACES]) {
        let mut bytes = [0; 4 * PLACES];
        for (place, word) in bytes.as_chunks_mut::<4>().0.iter_mut().zip(words) {
            *place = word.to_be_bytes();
        }
        self.put(bytes);
    }

    fn slot(&mut self, slot: &Slot) {
        self.put([slot.present.into(), slot.buf, slot.is_ref.into(), slot.need_for_out.into()]);
        self.byte(slot.temporal_id);
        self.word(slot.poc);
        self.words(&slot.list_poc);
    }

    fn entry(&mut self, entry: &Entry) {
        self.put([entry.present.into(), entry.buf]);
        self.word(entry.poc);
        self.words(&entry.list_poc);
    }

    fn record(&mut self, record: &Record) {
        self.word(record.poc_val as u32);
        self.word(record.prev_poc_val);
        self.word(record.prev_doc_offset as u32);
    }
}

/// Where a byte of the image belongs: what a report of a difference calls it.
pub fn field_name(at: usize) -> String {
    const STATE: [&str; 11] = [
        "max_pb_size",
        "max_num_ref_pics",
        "cur_pb_size",
        "cur_num_ref_pics",
        "num_refp[0]",
        "num_refp[1]",
        "poc_next_output",
        "poc_next_output",
        "poc_next_output",
        "poc_next_output",
        "poc_increase",
    ];
    const RECORD: [&str; 3] = ["poc_val", "prev_poc_val", "prev_doc_offset"];
    if at < SLOTS * SLOT_BYTES {
        format!("pic[{}].{}", at / SLOT_BYTES, slot_field(at % SLOT_BYTES))
    } else if at < (SLOTS + 1) * SLOT_BYTES {
        format!("pic_lease.{}", slot_field(at % SLOT_BYTES))
    } else if at < LISTS_AT {
        STATE[at - (SLOTS + 1) * SLOT_BYTES].to_string()
    } else if at < RECORD_AT {
        let (place, byte) = ((at - LISTS_AT) / ENTRY_BYTES, (at - LISTS_AT) % ENTRY_BYTES);
        format!("refp[{}][{}].{}", place % PLACES, place / PLACES, entry_field(byte))
    } else {
        RECORD[(at - RECORD_AT) / 4].to_string()
    }
}

fn slot_field(byte: usize) -> String {
    const FIELDS: [&str; 5] = ["present", "buffer", "is_ref", "need_for_out", "temporal_id"];
    match byte {
        0..=4 => FIELDS[byte].to_string(),
        5..=8 => "poc".to_string(),
        _ => format!("list_poc[{}]", (byte - 9) / 4),
    }
}

fn entry_field(byte: usize) -> String {
    match byte {
        0 => "present".to_string(),
        1 => "buffer".to_string(),
        2..=5 => "poc".to_string(),
        _ => format!("list_poc[{}]", (byte - 6) / 4),
    }
}
