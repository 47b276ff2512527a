//! What the comparison met: how often each call came to each status, and some situations worth meeting.

use crate::call::{Call, Put, Reply, NOT_YET, NO_MORE};
use crate::image::Machine;
use crate::papers::marking;
use std::fmt;

/// The rows of the table. A put of no picture and the slice types stand apart.
pub const KINDS: [&str; 13] = [
    "init",
    "get",
    "put",
    "put of no picture",
    "out",
    "lists I",
    "lists P",
    "lists B",
    "lists unknown",
    "derive",
    "no call",
    "copy",
    "not an image",
];
const NO_CALL: usize = 10;
const COPY: usize = 11;
const NO_IMAGE: usize = 12;

/// What must be met at least once; a comparison that misses one proves too little.
const WANTED: [&[u8]; KINDS.len()] = [
    &[0, 1, 7],
    &[0, 2, 3, 7],
    &[0, 4, 5, 6, 7],
    &[0, 7],
    &[0, 7, NOT_YET, NO_MORE],
    &[0, 6, 7],
    &[0, 6, 7, 8, 9, 11],
    &[0, 6, 7, 8, 9, 11],
    &[0, 6, 7, 8, 9, 11],
    &[0, 6, 15, 16],
    &[18],
    &[0, 13, 14],
    &[18],
];

/// The rows in which an old reference can be met, and what such calls must come to at least once.
const OLD_ROWS: [usize; 3] = [6, 7, 8];
const WANTED_OLD: [u8; 2] = [0, 11];

const SITUATIONS: [&str; 19] = [
    "get takes an idle picture again",
    "get makes a new picture",
    "put fills the 27th slot",
    "put marks: first step unmarks one",
    "put marks: first step unmarks several",
    "put marks: sliding limit notes one slot",
    "put marks: sliding limit notes several",
    "put marks: slot 0 is spared by the gap rule",
    "put of an IDR picture unmarks",
    "put of a reference to slot 26",
    "out hands over while a lower number waits in a higher slot",
    "lists with 21 marked",
    "lists with equal numbers among the marked",
    "lists with a limit over 21",
    "lists: forward list full to the limit",
    "lists: an entry from the upward pass of the forward list",
    "derive: previous grows",
    "derive: the search wraps",
    "derive: a negative number",
];

#[derive(Clone)]
pub struct Coverage {
    pub calls: u64,
    /// Calls on which the original ran and its whole state was compared.
    pub judged_by_rust: u64,
    /// Accepted calls on lists that the Rust cannot hold: an empty entry with a buffer number.
    pub no_counterpart: u64,
    /// Accepted calls that meet an old reference, compared with the original on the state less its old marks.
    pub less_old: u64,
    by_status: [[u64; 256]; KINDS.len()],
    /// Of these, the calls that meet an old reference: the definition decides them, and not the Rust.
    old_by_status: [[u64; 256]; KINDS.len()],
    situations: [u64; SITUATIONS.len()],
}

impl Default for Coverage {
    fn default() -> Self {
        Coverage {
            calls: 0,
            judged_by_rust: 0,
            no_counterpart: 0,
            less_old: 0,
            by_status: [[0; 256]; KINDS.len()],
            old_by_status: [[0; 256]; KINDS.len()],
            situations: [0; SITUATIONS.len()],
        }
    }
}

impl Coverage {
    pub fn call(&mut self, call: Option<&Call>, status: u8, met_old: bool) {
        self.calls += 1;
        let (row, status) = (call.map_or(NO_CALL, kind), usize::from(status));
        self.by_status[row][status] += 1;
        self.old_by_status[row][status] += u64::from(met_old);
    }

    /// Calls that meet an old reference, and those of them that are accepted.
    pub fn met_old(&self) -> (u64, u64) {
        let rows = &self.old_by_status;
        (rows.iter().flatten().sum(), rows.iter().map(|row| row[0]).sum())
    }

    pub fn copy(&mut self, status: u8) {
        self.calls += 1;
        self.by_status[COPY][usize::from(status)] += 1;
    }

    pub fn no_image(&mut self, status: u8) {
        self.calls += 1;
        self.by_status[NO_IMAGE][usize::from(status)] += 1;
    }

    /// The situations of an accepted call, from the machine before it and after it.
    pub fn accepted(&mut self, call: &Call, before: &Machine, after: &Machine, reply: &Reply) {
        let met: [bool; SITUATIONS.len()] = match call {
            Call::Get => get_situations(before, after),
            Call::Put(put) => put_situations(put, before, after),
            Call::Out => out_situations(before, reply),
            Call::Lists(lists) if lists.slice_type != 1 => list_situations(lists.poc, lists.limit, before, after),
            Call::Derive { log2_length, .. } => derive_situations(*log2_length, before, after),
            _ => return,
        };
        for (count, met) in self.situations.iter_mut().zip(met) {
            *count += u64::from(met);
        }
    }

    /// What should have been met and was not.
    pub fn missing(&self) -> Vec<String> {
        let mut missing = Vec::new();
        for (kind, statuses) in WANTED.iter().enumerate() {
            for status in statuses.iter().filter(|status| self.by_status[kind][usize::from(**status)] == 0) {
                missing.push(format!("{} with status {}", KINDS[kind], status_name(*status)));
            }
        }
        for (row, status) in OLD_ROWS.iter().flat_map(|row| WANTED_OLD.map(|status| (*row, status))) {
            if self.old_by_status[row][usize::from(status)] == 0 {
                missing.push(format!(
                    "{} with an old reference met and status {}",
                    KINDS[row],
                    status_name(status)
                ));
            }
        }
        for (name, count) in SITUATIONS.iter().zip(self.situations) {
            if count == 0 {
                missing.push(name.to_string());
            }
        }
        missing
    }
}

pub fn kind(call: &Call) -> usize {
    match call {
        Call::Init { .. } => 0,
        Call::Get => 1,
        Call::Put(put) if !put.has(Put::NO_PICTURE) => 2,
        Call::Put(_) => 3,
        Call::Out => 4,
        Call::Lists(lists) => match lists.slice_type {
            1 => 5,
            2 => 6,
            3 => 7,
            _ => 8,
        },
        Call::Derive { .. } => 9,
    }
}

pub fn status_name(status: u8) -> String {
    match status {
        0 => "done".to_string(),
        NOT_YET => "not yet".to_string(),
        NO_MORE => "no more".to_string(),
        refusal => refusal.to_string(),
    }
}

type Met = [bool; SITUATIONS.len()];

fn at(first: usize, met: &[bool]) -> Met {
    let mut all = [false; SITUATIONS.len()];
    all[first..first + met.len()].copy_from_slice(met);
    all
}

fn get_situations(before: &Machine, after: &Machine) -> Met {
    let again = after.cur_pb_size < before.cur_pb_size;
    at(0, &[again, !again])
}

fn put_situations(put: &Put, before: &Machine, after: &Machine) -> Met {
    let full = !put.has(Put::NO_PICTURE) && after.cur_pb_size == 27;
    let last = !before.pic[26].marked() && after.pic[26].marked();
    if put.has(Put::IDR) {
        return at(2, &[full, false, false, false, false, false, before.marked() > 0, last]);
    }
    if put.temporal_id > 0 {
        return at(2, &[full, false, false, false, false, false, false, last]);
    }
    let (first, notes) = marking::unmarked_by(before, put.gap);
    let front = &before.pic[0];
    let spared = front.marked() && front.temporal_id == 0 && put.gap > 0 && !front.poc.is_multiple_of(put.gap);
    at(2, &[full, first == 1, first > 1, notes == 1, notes > 1, spared, false, last])
}

fn out_situations(before: &Machine, reply: &Reply) -> Met {
    let lower = |slot: &&crate::image::Slot| slot.wanted() && slot.poc < reply.value;
    at(10, &[reply.status == 0 && before.pic.iter().any(|slot| lower(&slot))])
}

fn list_situations(poc: u32, limit: u8, before: &Machine, after: &Machine) -> Met {
    let mut numbers: Vec<u32> = before.pic.iter().filter(|slot| slot.marked()).map(|slot| slot.poc).collect();
    let marked = numbers.len();
    numbers.sort_unstable();
    numbers.dedup();
    let forward = &after.refp[0][..usize::from(after.num_refp[0])];
    let upward = forward.iter().any(|entry| entry.poc > poc);
    at(11, &[marked == 21, numbers.len() < marked, limit > 21, forward.len() == usize::from(limit), upward])
}

fn derive_situations(log2_length: u8, before: &Machine, after: &Machine) -> Met {
    let next = (before.record.prev_doc_offset + 1) % (1 << log2_length);
    let (old, new) = (&before.record, &after.record);
    at(16, &[new.prev_poc_val > old.prev_poc_val, new.prev_doc_offset < next, new.poc_val < 0])
}

fn write_row(f: &mut fmt::Formatter<'_>, name: &str, row: &[u64; 256]) -> fmt::Result {
    write!(f, "  {name:18}")?;
    for (status, count) in row.iter().enumerate().filter(|(_, count)| **count > 0) {
        write!(f, " {}: {count} ", status_name(status as u8))?;
    }
    writeln!(f)
}

impl fmt::Display for Coverage {
    fn fmt(&self, f: &mut fmt::Formatter<'_>) -> fmt::Result {
        for (name, row) in KINDS.iter().zip(&self.by_status) {
            write_row(f, name, row)?;
        }
        writeln!(f, "  of these, with an old reference met before the list was full:")?;
        for row in OLD_ROWS {
            write_row(f, KINDS[row], &self.old_by_status[row])?;
        }
        for (name, count) in SITUATIONS.iter().zip(self.situations) {
            writeln!(f, "  {count:>10}  {name}")?;
        }
        Ok(())
    }
}
