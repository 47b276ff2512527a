//! The running machine of `include/picman.h`: its three arrays, which machine they stand for, when that is whole, and the
//! comparison of the calls on it.

pub mod coverage;
pub mod judge;
pub mod library;
pub mod rules;

use crate::image::{Entry, Machine, Record, Slot, LISTS, PLACES, SLOTS};

pub const ROWS: usize = 73 * PLACES;
pub const REGISTERS: usize = 13;

/// The first row of the entries' heads, of their numbers and of their list numbers.
const HEADS: usize = 27 * PLACES;
const NUMBERS: usize = 29 * PLACES;
const ENTRIES: usize = 31 * PLACES;

/// Registers by place.
pub const LEASE_LOW: usize = 0;
pub const LEASE_HIGH: usize = 1;
pub const NEXT_OUTPUT: usize = 2;
pub const POC_VAL: usize = 3;
pub const PREV_POC_VAL: usize = 4;
pub const PREV_DOC_OFFSET: usize = 5;
pub const MAX_PB_SIZE: usize = 6;
pub const MAX_NUM_REF_PICS: usize = 7;
pub const CUR_PB_SIZE: usize = 8;
pub const CUR_NUM_REF_PICS: usize = 9;
pub const NUM_REFP: usize = 10;
pub const POC_INCREASE: usize = 12;

#[derive(Clone, Debug, PartialEq)]
#[repr(C)]
pub struct Running {
    pub keys: [u64; SLOTS],
    pub rows: [u32; ROWS],
    pub registers: [u32; REGISTERS],
}

impl Default for Running {
    fn default() -> Running {
        Running::new()
    }
}

impl Running {
    /// The new machine.
    pub fn new() -> Running {
        Running { keys: [0; SLOTS], rows: [0; ROWS], registers: [0; REGISTERS] }
    }

    /// Something that no call leaves, so that what is not written can be seen.
    pub fn filled() -> Running {
        Running { keys: [0xa5a5_a5a5_a5a5_a5a5; SLOTS], rows: [0x5a5a_5a5a; ROWS], registers: [0xa55a; REGISTERS] }
    }

    pub fn lease(&self) -> u64 {
        u64::from(self.registers[LEASE_HIGH]) << 32 | u64::from(self.registers[LEASE_LOW])
    }

    pub fn set_lease(&mut self, key: u64) {
        self.registers[LEASE_LOW] = key as u32;
        self.registers[LEASE_HIGH] = (key >> 32) as u32;
    }

    /// The machine that whole arrays stand for. Of others only lists and record say something. A count is a byte; a
    /// higher number is read as the highest one.
    pub fn stands(&self) -> Machine {
        let byte = |at: usize| self.registers[at].min(255) as u8;
        Machine {
            pic: std::array::from_fn(|i| self.slot(self.keys[i])),
            lease: self.slot(self.lease()),
            max_pb_size: byte(MAX_PB_SIZE),
            max_num_ref_pics: byte(MAX_NUM_REF_PICS),
            cur_pb_size: byte(CUR_PB_SIZE),
            cur_num_ref_pics: byte(CUR_NUM_REF_PICS),
            num_refp: [byte(NUM_REFP), byte(NUM_REFP + 1)],
            poc_next_output: self.registers[NEXT_OUTPUT],
            poc_increase: byte(POC_INCREASE),
            refp: std::array::from_fn(|lidx| std::array::from_fn(|i| self.entry(PLACES * lidx + i))),
            record: self.record(),
        }
    }

    /// With the counts as they are read. A call that is made may write them so.
    pub fn clipped(&self) -> Running {
        let mut running = self.clone();
        running.registers[MAX_PB_SIZE..].iter_mut().for_each(|count| *count = (*count).min(255));
        running
    }

    pub fn record(&self) -> Record {
        Record {
            poc_val: self.registers[POC_VAL] as i32,
            prev_poc_val: self.registers[PREV_POC_VAL],
            prev_doc_offset: self.registers[PREV_DOC_OFFSET] as i32,
        }
    }

    fn slot(&self, key: u64) -> Slot {
        if key & 1 == 0 {
            return Slot::default();
        }
        let buf = (key >> 3 & 31) as u8;
        Slot {
            present: true,
            buf,
            is_ref: key & 2 != 0,
            need_for_out: key & 4 != 0,
            temporal_id: (key >> 8) as u8,
            poc: (key >> 16) as u32,
            list_poc: self.row(usize::from(buf)),
        }
    }

    fn entry(&self, place: usize) -> Entry {
        let head = self.rows[HEADS + place];
        Entry {
            present: head & 1 != 0,
            buf: (head >> 1) as u8,
            poc: self.rows[NUMBERS + place],
            list_poc: self.row(31 + place),
        }
    }

    fn row(&self, row: usize) -> [u32; PLACES] {
        std::array::from_fn(|i| self.rows[PLACES * row + i])
    }

    /// The arrays that stand for a machine; what they leave open stays as it is. False where keys cannot say its state.
    pub fn write(&mut self, machine: &Machine) -> bool {
        for (i, slot) in machine.pic.iter().enumerate() {
            self.keys[i] = self.write_slot(slot);
        }
        let lease = self.write_slot(&machine.lease);
        self.set_lease(lease);
        let Machine { max_pb_size, max_num_ref_pics, cur_pb_size, cur_num_ref_pics, num_refp, .. } = machine;
        let bytes = [*max_pb_size, *max_num_ref_pics, *cur_pb_size, *cur_num_ref_pics, num_refp[0], num_refp[1]];
        for (register, byte) in self.registers[MAX_PB_SIZE..].iter_mut().zip(bytes) {
            *register = byte.into();
        }
        self.registers[POC_INCREASE] = machine.poc_increase.into();
        self.registers[NEXT_OUTPUT] = machine.poc_next_output;
        self.write_lists(machine);
        self.write_record(&machine.record);
        self.stands() == *machine
    }

    pub fn write_lists(&mut self, machine: &Machine) {
        for place in 0..LISTS * PLACES {
            let entry = &machine.refp[place / PLACES][place % PLACES];
            self.rows[HEADS + place] = 2 * u32::from(entry.buf) + u32::from(entry.present);
            self.rows[NUMBERS + place] = entry.poc;
            self.rows[ENTRIES + PLACES * place..][..PLACES].copy_from_slice(&entry.list_poc);
        }
    }

    pub fn write_record(&mut self, record: &Record) {
        self.registers[POC_VAL] = record.poc_val as u32;
        self.registers[PREV_POC_VAL] = record.prev_poc_val;
        self.registers[PREV_DOC_OFFSET] = record.prev_doc_offset as u32;
    }

    fn write_slot(&mut self, slot: &Slot) -> u64 {
        let buf = u64::from(slot.buf & 31);
        if slot.present && buf < SLOTS as u64 {
            self.rows[PLACES * buf as usize..][..PLACES].copy_from_slice(&slot.list_poc);
        }
        u64::from(slot.poc) << 16
            | u64::from(slot.temporal_id) << 8
            | buf << 3
            | u64::from(slot.need_for_out) << 2
            | u64::from(slot.is_ref) << 1
            | u64::from(slot.present)
    }
}
