//! The benchmark's mixes: the calls that set a machine up, and then one situation again and again. None is turned down,
//! but a few of the mixed ones; the numbers that do not matter are drawn.

use super::lines::{LineMaker, Refusals};
use crate::call::{Call, Lists, Put};
use crate::lines::{call_of, push_line};
use crate::rng::Rng;

pub struct Mix {
    pub name: &'static str,
    /// One call of this mix may take the original so long that only a part of the calls asked for is made.
    pub part: u64,
    setup: fn(&mut Vec<Call>),
    round: fn(&mut Rng, &mut Counter, &mut Vec<Call>),
}

/// The running number of a mix, and how many rounds went by.
#[derive(Default)]
pub struct Counter {
    number: u32,
    rounds: u32,
}

const INIT: Call = Call::Init { max_pb_size: 27, max_num_ref_pics: 21 };
/// Far from due.
const LATER: u32 = 1_000_000_000;
/// The order in which a group's layers are coded.
const GROUP_16: [u8; 16] = [0, 1, 2, 2, 3, 3, 3, 3, 4, 4, 4, 4, 4, 4, 4, 4];

/// The mixed lines are a file of their own.
pub const MIXED: &str = "mixed";

pub const MIXES: [Mix; 17] = [
    mix("get, put without reference", init, no_reference),
    mix("the same, 10 pictures waiting", ten_waiting, no_reference),
    mix("get, put of a reference at layer 0", init, |rng, counter, calls| {
        let number = counter.next(rng);
        calls.extend([Call::Get, put(Put::REFERENCE, number, 0, 0)]);
    }),
    mix("the same, gap 8", init, |rng, counter, calls| {
        let number = counter.next(rng);
        calls.extend([Call::Get, put(Put::REFERENCE, number, 0, 8)]);
    }),
    mix("get, put of references at layers 0, 1, 2, 2", init, |_, counter, calls| {
        for (ahead, layer) in [(8, 0), (4, 1), (2, 2), (6, 2)] {
            calls.extend([Call::Get, put(Put::REFERENCE, counter.number + ahead, layer, 0)]);
        }
        counter.number += 8;
    }),
    mix("out, none wanted", init, |_, _, calls| calls.push(Call::Out)),
    mix("out, 20 wanted and none due", twenty_waiting, |_, _, calls| calls.push(Call::Out)),
    mix("get, put wanted, out due", init, |rng, counter, calls| {
        let (number, layer) = (counter.number, 1 + rng.below(3) as u8);
        counter.number += 1;
        calls.extend([Call::Get, put(Put::WANTED, number, layer, 0), Call::Out]);
    }),
    mix("lists P, 4 references", four_references, |rng, _, calls| {
        calls.push(lists(2, 25 + rng.below(40) as u32, 1, 4));
    }),
    mix("lists B, 4 references", four_references, |rng, _, calls| {
        calls.push(lists(3, 9 + rng.below(7) as u32, 2, 4));
    }),
    mix("lists P, 21 references", all_references, |rng, _, calls| {
        calls.push(lists(2, 41 + rng.below(60) as u32, 1, 21));
    }),
    mix("lists B, 21 references", all_references, |rng, _, calls| {
        calls.push(lists(3, 15 + rng.below(12) as u32, 3, 21));
    }),
    mix("derive, groups of 16", nothing, |_, _, calls| calls.extend(GROUP_16.map(|layer| derive(4, layer)))),
    mix("derive, groups of 32,768", nothing, |_, counter, calls| {
        let at = counter.rounds % (1 << 15);
        calls.push(derive(15, if at == 0 { 0 } else { 1 + at.ilog2() as u8 }));
    }),
    Mix {
        part: 250,
        ..mix("derive, groups of 32,768, layers in any order", nothing, |rng, _, calls| {
            calls.push(derive(15, 1 + rng.below(15) as u8));
        })
    },
    mix("put of no picture", four_references, |rng, _, calls| {
        calls.push(put(Put::NO_PICTURE, 0, 1 + rng.below(3) as u8, 0));
    }),
    mix("init", init, |rng, _, calls| {
        calls.push(Call::Init { max_pb_size: 20 + rng.below(8) as u8, max_num_ref_pics: rng.below(22) as u8 });
    }),
];

const fn mix(
    name: &'static str,
    setup: fn(&mut Vec<Call>),
    round: fn(&mut Rng, &mut Counter, &mut Vec<Call>),
) -> Mix {
    Mix { name, part: 1, setup, round }
}

impl Counter {
    /// Up by one, two or three.
    fn next(&mut self, rng: &mut Rng) -> u32 {
        self.number += 1 + rng.below(3) as u32;
        self.number
    }
}

impl Mix {
    pub fn setup(&self) -> Vec<Call> {
        let mut calls = Vec::new();
        (self.setup)(&mut calls);
        calls
    }

    /// About `count` calls, whole rounds, on the machine that is set up.
    pub fn calls(&self, count: u64, seed: u64) -> Vec<Call> {
        let (mut rng, mut counter, mut calls) = (Rng::new(seed), Counter::default(), Vec::new());
        while (calls.len() as u64) < count.div_ceil(self.part) {
            (self.round)(&mut rng, &mut counter, &mut calls);
            counter.rounds += 1;
        }
        calls
    }
}

/// Mixed call lines, as `rustline generate` writes them.
pub fn mixed_lines(count: u64, seed: u64) -> Vec<u8> {
    let mut maker = LineMaker::new(count, seed, Refusals::Few);
    let mut lines = Vec::new();
    (0..count).for_each(|_| maker.push(&mut lines));
    lines
}

/// The calls among the mixed lines.
pub fn mixed_calls(count: u64, seed: u64) -> Vec<Call> {
    mixed_lines(count, seed).split(|byte| *byte == b'\n').filter_map(call_of).collect()
}

/// The lines of a mix by its name.
pub fn lines_of(name: &str, count: u64, seed: u64) -> Option<Vec<u8>> {
    if name == MIXED {
        return Some(mixed_lines(count, seed));
    }
    let mix = MIXES.iter().find(|mix| mix.name == name)?;
    let mut lines = Vec::new();
    for call in mix.setup().iter().chain(&mix.calls(count, seed)) {
        push_line(&mut lines, &call.bytes());
    }
    Some(lines)
}

fn put(flags: u8, poc: u32, temporal_id: u8, gap: u32) -> Call {
    Call::Put(Put { flags, poc, temporal_id, gap })
}

fn lists(slice_type: u8, poc: u32, layer: u8, limit: u8) -> Call {
    Call::Lists(Lists { slice_type, poc, layer, last_intra: -1, limit })
}

fn derive(log2_length: u8, layer: u8) -> Call {
    Call::Derive { log2_length, layer }
}

fn nothing(_: &mut Vec<Call>) {}

fn init(calls: &mut Vec<Call>) {
    calls.push(INIT);
}

fn no_reference(rng: &mut Rng, counter: &mut Counter, calls: &mut Vec<Call>) {
    let number = counter.next(rng);
    calls.extend([Call::Get, put(0, number, 1 + rng.below(3) as u8, 0)]);
}

fn waiting(count: u32, calls: &mut Vec<Call>) {
    init(calls);
    for i in 0..count {
        calls.extend([Call::Get, put(Put::WANTED, LATER + i, 1, 0)]);
    }
}

fn ten_waiting(calls: &mut Vec<Call>) {
    waiting(10, calls);
}

fn twenty_waiting(calls: &mut Vec<Call>) {
    waiting(20, calls);
}

fn four_references(calls: &mut Vec<Call>) {
    calls.extend([INIT, Call::Get, put(Put::IDR | Put::REFERENCE, 0, 0, 0)]);
    for number in [8, 16, 24] {
        calls.extend([Call::Get, put(Put::REFERENCE, number, 0, 0)]);
    }
}

fn all_references(calls: &mut Vec<Call>) {
    init(calls);
    for i in 0..21 {
        calls.extend([Call::Get, put(Put::REFERENCE, 2 * i, 1, 0)]);
    }
}
