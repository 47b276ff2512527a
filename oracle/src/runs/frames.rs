//! The specification's "Frames to check by hand" as the requests amend them, and its sample of the program, each against
//! what the documents say.

use crate::call::{Call, Lists, Put};
use crate::image::{Machine, Record, Slot};
use crate::judge::{Difference, Judge, Sides, Verdict};
use crate::lines;
use std::fmt::Debug;

/// Gives how many frames there were.
pub fn run(judge: &mut Judge) -> Verdict<usize> {
    Ok(numbers(judge)?
        + marking(judge)?
        + lists(judge)?
        + old_passed_over(judge)?
        + limits(judge)?
        + sample(judge)?)
}

fn hold<T: Debug + PartialEq>(what: &str, found: T, said: T) -> Verdict<()> {
    if found == said {
        return Ok(());
    }
    Err(Difference(format!("frame {what}: found {found:?}, the papers say {said:?}")))
}

/// A derivation: its status and number, and the record after it.
fn derive(judge: &mut Judge, l: u8, t: u8, record: Record) -> Verdict<(u8, i32, Record)> {
    let mut sides = Sides::from_machine(&Machine { record, ..Machine::default() });
    let reply = judge.call(&mut sides, &Call::Derive { log2_length: l, layer: t }.bytes())?;
    Ok((reply.status, reply.value as i32, sides.machine.record))
}

fn record(prev_poc_val: u32, prev_doc_offset: i32) -> Record {
    Record { poc_val: 0, prev_poc_val, prev_doc_offset }
}

fn numbers(judge: &mut Judge) -> Verdict<usize> {
    let mut left = record(8, 0);
    for (layer, number) in [(1, 4), (2, 2), (2, 6), (3, 1)] {
        let (status, found, after) = derive(judge, 3, layer, left)?;
        hold("L 3 from previous 8", (status, found), (0, number))?;
        left = after;
    }
    let (_, number, after) = derive(judge, 3, 1, record(8, 7))?;
    hold("L 3, previous 8, offset 7", (number, after.prev_poc_val), (12, 16))?;
    hold("L 2 from 0", derive(judge, 2, 1, record(0, 0))?.1, -2)?;
    hold("L 15", derive(judge, 15, 15, record(32_768, 32_766))?.1, 32_767)?;
    hold("L 0, layer 1", derive(judge, 0, 1, record(0, 0))?.0, 15)?;
    let (status, number, after) = derive(judge, 0, 0, record(2_147_483_646, 0))?;
    hold("L 0 to the top", (status, number), (0, 2_147_483_647))?;
    hold("L 0 past the top", derive(judge, 0, 0, after)?.0, 6)?;
    Ok(10)
}

/// Marked pictures of (number, layer) in the first slots.
fn marked(pictures: &[(u32, u8)]) -> Machine {
    let mut machine = Machine::default();
    for (i, (poc, temporal_id)) in pictures.iter().enumerate() {
        let buf = i as u8;
        machine.pic[i] =
            Slot { present: true, buf, is_ref: true, poc: *poc, temporal_id: *temporal_id, ..Slot::default() };
    }
    machine.cur_pb_size = pictures.len() as u8;
    machine.cur_num_ref_pics = pictures.len() as u8;
    machine
}

/// The numbers in the occupied slots after marking, slot by slot.
fn mark(judge: &mut Judge, machine: &Machine, gap: u32) -> Verdict<(Vec<(usize, u32)>, u8)> {
    let mut sides = Sides::from_machine(machine);
    judge.call(&mut sides, &Call::Put(Put { flags: Put::NO_PICTURE, poc: 0, temporal_id: 0, gap }).bytes())?;
    let slots = sides.machine.pic.iter().enumerate().filter(|(_, slot)| slot.present);
    Ok((slots.map(|(i, slot)| (i, slot.poc)).collect(), sides.machine.cur_num_ref_pics))
}

fn marking(judge: &mut Judge) -> Verdict<usize> {
    let five = marked(&[(0, 0), (1, 0), (2, 0), (3, 0), (4, 0)]);
    let (slots, count) = mark(judge, &five, 0)?;
    hold("five marked", (slots, count), (vec![(0, 1), (1, 2), (2, 3), (3, 4), (26, 0)], 4))?;
    let (slots, _) = mark(judge, &marked(&[(3, 0), (4, 0), (5, 0)]), 4)?;
    hold("gap 4", slots, vec![(0, 3), (1, 4), (26, 5)])?;
    Ok(2)
}

/// The status and the numbers of both lists.
fn list(judge: &mut Judge, machine: &Machine, lists: Lists) -> Verdict<(u8, [Vec<u32>; 2])> {
    let mut sides = Sides::from_machine(machine);
    let reply = judge.call(&mut sides, &Call::Lists(lists).bytes())?;
    let after = &sides.machine;
    let numbers = |lidx: usize| {
        let entries = after.refp[lidx].iter().take(usize::from(after.num_refp[lidx]));
        entries.map(|entry| entry.poc).collect()
    };
    Ok((reply.status, [numbers(0), numbers(1)]))
}

fn lists(judge: &mut Judge) -> Verdict<usize> {
    let b = Lists { slice_type: 3, poc: 2, layer: 2, last_intra: 0, limit: 2 };
    let found = list(judge, &marked(&[(0, 0), (8, 0), (4, 1)]), b)?;
    hold("B at 2", found, (0, [vec![0, 4], vec![4, 8]]))?;
    let p = Lists { slice_type: 2, poc: 8, layer: 0, last_intra: 4, limit: 1 };
    let old = marked(&[(0, 0), (4, 0)]);
    hold("P at 8, limit 1", list(judge, &old, p)?, (0, [vec![4], vec![]]))?;
    hold("P at 8, limit 2", list(judge, &old, Lists { limit: 2, ..p })?, (0, [vec![4], vec![]]))?;
    Ok(3)
}

/// Document 02, M-100: an old reference is passed over.
fn old_passed_over(judge: &mut Judge) -> Verdict<usize> {
    let b = Lists { slice_type: 3, poc: 8, layer: 1, last_intra: 4, limit: 21 };
    let found = list(judge, &marked(&[(0, 0), (12, 0)]), b)?;
    hold("an old one does not stop the walk upwards", found, (0, [vec![12], vec![12]]))?;
    let b = Lists { poc: 5, layer: 3, last_intra: 2, ..b };
    let found = list(judge, &marked(&[(1, 0), (9, 2)]), b)?;
    hold("an old one leaves the bound", found, (0, [vec![9], vec![9]]))?;
    let p = Lists { slice_type: 2, poc: 8, layer: 0, last_intra: 4, limit: 21 };
    hold("all old", list(judge, &marked(&[(0, 0)]), p)?.0, 11)?;
    let found = list(judge, &marked(&[(0, 0)]), Lists { layer: 1, ..p })?;
    hold("P above layer 0 has no age test", found, (0, [vec![0], vec![]]))?;
    Ok(4)
}

fn limits(judge: &mut Judge) -> Verdict<usize> {
    let pictures: Vec<(u32, u8)> = (0..22).map(|poc| (poc, 0)).collect();
    let p = Lists { slice_type: 2, poc: 30, layer: 0, last_intra: 0, limit: 21 };
    hold("21 marked", list(judge, &marked(&pictures[..21]), p)?.0, 0)?;
    hold("22 marked", list(judge, &marked(&pictures), p)?.0, 8)?;

    let idr = Call::Put(Put { flags: Put::IDR | Put::REFERENCE, poc: 0, temporal_id: 0, gap: 0 });
    let mut sides = Sides::new();
    let mut last = 0;
    for call in [Call::Init { max_pb_size: 4, max_num_ref_pics: 2 }, Call::Get, idr, Call::Get, idr] {
        last = judge.call(&mut sides, &call.bytes())?.status;
    }
    hold("a second IDR reference", last, 5)?;
    Ok(3)
}

fn sample(judge: &mut Judge) -> Verdict<usize> {
    const SAMPLE: [(&str, &str); 6] = [
        ("010402f9", "0100ff0000000000"),
        ("02fe", "02000000000000fe"),
        ("0307000000000000000000f6", "03000000000000fd"),
        ("04fc", "04000000000000fc"),
        ("04fc", "0441ff00000000bc"),
        ("00", "0012ff00000000ef"),
    ];
    let mut sides = Sides::new();
    for (call, answer) in SAMPLE {
        let reply = judge.call(&mut sides, &lines::bytes_of(call.as_bytes()).unwrap())?;
        let line = lines::answer_line(&reply);
        hold("the program's sample", String::from_utf8_lossy(&line[..16]).into_owned(), answer.to_string())?;
    }
    Ok(SAMPLE.len())
}
