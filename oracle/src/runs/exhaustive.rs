//! Every short sequence of calls over a small alphabet, from the new state.

use crate::call::{Call, Lists, Put};
use crate::image::Machine;
use crate::judge::{Judge, Sides, Verdict};

const fn put(flags: u8, poc: u32, temporal_id: u8, gap: u32) -> Call {
    Call::Put(Put { flags, poc, temporal_id, gap })
}

const fn lists(slice_type: u8, poc: u32, layer: u8, last_intra: i32, limit: u8) -> Call {
    Call::Lists(Lists { slice_type, poc, layer, last_intra, limit })
}

/// Each kind of call, with little in it.
const BROAD: [Call; 16] = [
    Call::Init { max_pb_size: 3, max_num_ref_pics: 2 },
    Call::Init { max_pb_size: 28, max_num_ref_pics: 2 },
    Call::Get,
    put(Put::IDR | Put::REFERENCE | Put::WANTED, 0, 0, 0),
    put(Put::REFERENCE | Put::WANTED, 3, 0, 2),
    put(Put::REFERENCE, 4, 1, 0),
    put(Put::WANTED, 1, 2, 0),
    put(Put::NO_PICTURE, 0, 0, 2),
    Call::Out,
    lists(2, 4, 0, -1, 2),
    lists(3, 2, 2, 0, 2),
    lists(0, 4, 1, 1, 22),
    lists(1, 4, 0, 0, 1),
    Call::Derive { log2_length: 1, layer: 0 },
    Call::Derive { log2_length: 1, layer: 1 },
    Call::Derive { log2_length: 1, layer: 2 },
];

/// Fewer, for longer sequences behind an init.
const NARROW: [Call; 8] = [
    Call::Get,
    put(Put::REFERENCE | Put::WANTED, 4, 0, 4),
    put(Put::REFERENCE, 2, 1, 0),
    put(Put::WANTED, 1, 0, 0),
    put(Put::IDR | Put::NO_PICTURE, 0, 0, 0),
    Call::Out,
    lists(3, 2, 1, 0, 5),
    lists(2, 5, 0, 0, 1),
];

pub fn run(judge: &mut Judge, quick: bool) -> Verdict<()> {
    let new = Machine::default();
    walk(judge, &new, &BROAD, if quick { 3 } else { 6 })?;
    let mut sides = Sides::new();
    judge.call(&mut sides, &Call::Init { max_pb_size: 27, max_num_ref_pics: 21 }.bytes())?;
    walk(judge, &sides.machine, &NARROW, if quick { 4 } else { 9 })
}

/// All sequences of up to `depth` calls on the machine.
fn walk(judge: &mut Judge, machine: &Machine, alphabet: &[Call], depth: u32) -> Verdict<()> {
    if depth == 0 {
        return Ok(());
    }
    for call in alphabet {
        let mut sides = Sides::from_machine(machine);
        let reply = judge.call(&mut sides, &call.bytes())?;
        // A call turned down leaves the machine as it was, so what follows it follows without it too.
        if !(1..=18).contains(&reply.status) {
            walk(judge, &sides.machine, alphabet, depth - 1)?;
        }
    }
    Ok(())
}
