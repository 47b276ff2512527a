//! The running machine alone: lengths that do not fit, and arrays of any bits.

use crate::call::{Call, Lists, Put, BAD_LINE};
use crate::generate::calls::Caller;
use crate::generate::running::*;
use crate::generate::states::whole_state;
use crate::image::{Machine, IMAGE_BYTES, PLACES, SLOTS};
use crate::judge::{Difference, Judge, Verdict};
use crate::rng::Rng;
use crate::running::judge::{unchanged, RunningJudge};
use crate::running::library::{answer_bits, Lent};
use crate::running::rules::{rules, RULES};
use crate::running::{Running, REGISTERS, ROWS};
use crate::watch;

/// The new machine, wrong lengths, and images whose flags do not fit.
pub fn run_lengths(judge: &mut Judge, rng: &mut Rng) -> Verdict<()> {
    let running = &mut judge.running;
    new_machine(running).map_err(Difference)?;
    let lengths = [SLOTS - 1, SLOTS, SLOTS + 1];
    for keys in lengths {
        for rows in [ROWS - 1, ROWS, ROWS + 1] {
            for registers in [REGISTERS - 1, REGISTERS, REGISTERS + 1] {
                wrong_lengths(running, keys, rows, registers).map_err(Difference)?;
            }
        }
    }
    wrong_lengths(running, 0, 0, 0).map_err(Difference)?;
    wrong_others(running).map_err(Difference)?;
    wrong_flags(running, rng).map_err(Difference)
}

fn new_machine(running: &mut RunningJudge) -> Result<(), String> {
    let mut arrays = Box::new(Running::filled());
    let status = running.ours.new_machine(arrays.lent());
    if status != 0 || *arrays != Running::new() {
        return Err(format!("running machine: the new one gives {status}, or is not all zero"));
    }
    Ok(())
}

/// Every function on arrays of these lengths, one of which does not fit.
fn wrong_lengths(running: &mut RunningJudge, keys: usize, rows: usize, registers: usize) -> Result<(), String> {
    if (keys, rows, registers) == (SLOTS, ROWS, REGISTERS) {
        return Ok(());
    }
    watch::step();
    running.coverage.misfits += 1;
    let calls = [
        Call::Init { max_pb_size: 5, max_num_ref_pics: 3 },
        Call::Get,
        Call::Put(Put { flags: Put::NO_PICTURE, poc: 0, temporal_id: 0, gap: 0 }),
        Call::Out,
        Call::Lists(Lists { slice_type: 1, poc: 0, layer: 0, last_intra: 0, limit: 1 }),
        Call::Derive { log2_length: 3, layer: 0 },
    ];
    // A new machine in the part that fits, and one more behind it.
    let (mut keys, mut rows, mut registers) = (vec![0; keys], vec![0; rows], vec![0; registers]);
    let (mut image, mut answer) = ([0; IMAGE_BYTES], [0xaa; 8]);
    macro_rules! lent {
        () => {
            Lent { keys: &mut keys, rows: &mut rows, registers: &mut registers }
        };
    }
    let ours = &running.ours;
    let mut statuses = vec![ours.new_machine(lent!()), ours.load(lent!(), &image), ours.save(lent!(), &mut image)];
    for call in &calls {
        let bits = ours.by_numbers(lent!(), call);
        statuses.push(if bits == answer_bits(&crate::call::Reply::BAD) { BAD_LINE } else { 0 });
        statuses.push(ours.by_bytes(lent!(), &call.bytes(), &mut answer));
    }
    if statuses.iter().any(|status| *status != BAD_LINE) {
        return Err(format!("running machine: lengths that do not fit give {statuses:?}"));
    }
    let written = keys.iter().any(|key| *key != 0) || rows.iter().chain(&registers).any(|word| *word != 0);
    if written || image != [0; IMAGE_BYTES] || answer != [0xaa; 8] {
        return Err("running machine: something is written where lengths do not fit".to_string());
    }
    Ok(())
}

/// Lengths of an answer, an image and a row, and the flag of a copy.
fn wrong_others(running: &mut RunningJudge) -> Result<(), String> {
    let mut arrays = Box::new(Running::new());
    let ours = &running.ours;
    for len in [0, 7, 9, 16] {
        let mut answer = vec![0xaa; len];
        let status = ours.by_bytes(arrays.lent(), &Call::Derive { log2_length: 3, layer: 0 }.bytes(), &mut answer);
        if status != BAD_LINE || answer.iter().any(|byte| *byte != 0xaa) {
            return Err(format!("running machine: an answer of {len} bytes gives {status}, or is written"));
        }
    }
    for len in [0, IMAGE_BYTES - 1, IMAGE_BYTES + 1] {
        let mut image = vec![0; len];
        let statuses = [ours.load(arrays.lent(), &image), ours.save(arrays.lent(), &mut image)];
        if statuses != [BAD_LINE; 2] || image.iter().any(|byte| *byte != 0) {
            return Err(format!("running machine: an image of {len} bytes gives {statuses:?}, or is written"));
        }
    }
    for (len, present) in [(0, 1), (PLACES - 1, 1), (PLACES + 1, 1), (PLACES, 2), (PLACES, 255)] {
        let status = ours.copy(&mut arrays.rows, (0, 0), present, (1, 2), &vec![3; len]);
        if status != BAD_LINE {
            return Err(format!("running machine: a copy of {len} numbers and flag {present} gives {status}"));
        }
    }
    running.coverage.misfits += 12;
    unchanged("a length that does not fit", &Running::new(), &arrays)
}

/// Each flag byte of an image in turn, in a state that is whole and one that is not.
fn wrong_flags(running: &mut RunningJudge, rng: &mut Rng) -> Result<(), String> {
    for machine in [Machine::default(), Machine { cur_pb_size: 1, ..Machine::default() }, whole_state(rng)] {
        let mut image = [0; IMAGE_BYTES];
        machine.encode(&mut image);
        for at in 0..IMAGE_BYTES {
            let kept = std::mem::replace(&mut image[at], 2 + rng.below(254) as u8);
            if Machine::decode(&image).is_none() {
                watch::step();
                running.coverage.misfits += 1;
                running.load_refused(&image, BAD_LINE)?;
            }
            image[at] = kept;
        }
    }
    Ok(())
}

/// Calls on arrays of any bits.
pub fn run_any_bits(judge: &mut Judge, rng: &mut Rng, calls: u64) -> Verdict<()> {
    let coverage = |judge: &Judge| judge.running.coverage.any_whole + judge.running.coverage.any_broken;
    let end = coverage(judge) + calls;
    while coverage(judge) < end {
        let whole = whole_arrays(rng);
        each_call(judge, rng, &whole)?;
        for rule in 0..RULES.len() {
            if let Some(arrays) = broken_arrays(rng, &whole, rule) {
                each_call(judge, rng, &arrays)?;
                judge.running.coverage.rules[rule] += 1;
            }
        }
        for other in [edge_arrays, flipped_arrays, flipped_arrays, flipped_arrays, flipped_arrays, chance_arrays] {
            let arrays = other(rng, &whole);
            each_call(judge, rng, &arrays)?;
        }
    }
    Ok(())
}

/// Every kind of call on the same arrays, and a put with flags that are none.
fn each_call(judge: &mut Judge, rng: &mut Rng, arrays: &Running) -> Verdict<()> {
    let machine = arrays.stands();
    let mut caller = Caller::new(rng);
    let mut calls = vec![Call::Init { max_pb_size: 27, max_num_ref_pics: 21 }, Call::Get, Call::Out];
    calls.extend([caller.put(rng, &machine), caller.put_of_no_picture(rng, &machine)]);
    calls.extend([caller.lists(rng, &machine), caller.derive(rng)]);
    let Call::Put(put) = caller.put(rng, &machine) else { unreachable!() };
    calls.push(Call::Put(Put { flags: put.flags | 16 << rng.below(4), ..put }));
    for call in calls {
        watch::step();
        let found = judge.running.any_bits(arrays, &call);
        found.map_err(|why| {
            let (keys, registers) = (&arrays.keys, &arrays.registers);
            let held = rules(arrays).map(u8::from);
            Difference(format!("{why}\n{call:?}\non keys {keys:x?}\nregisters {registers:x?}\nrules {held:?}"))
        })?;
    }
    Ok(())
}
