//! Random calls. A caller has habits, so that one sequence fills the store, the next stays at layer 0 with equal
//! numbers, another lives near the highest number; and it knows the state, so that most calls are accepted.

use crate::call::{Answer, Call, Lists, Outcome, Put};
use crate::image::Machine;
use crate::papers::{self, MAX_POC};
use crate::rng::Rng;

use super::group::Group;

const LAYERS: &[&[u8]] =
    &[&[0], &[0, 1], &[1, 2, 3, 4, 5], &[0, 0, 1, 2, 3], &[0, 1, 2, 3, 4, 5, 255], &[0, 0, 0, 1]];
const GAPS: &[&[u32]] =
    &[&[0], &[1], &[2], &[4], &[8], &[0, 1, 2, 3, 4, 8], &[3, 0x7fff_ffff, 0x8000_0000, 0xffff_ffff]];
const LIMITS: &[&[u8]] = &[&[1], &[2], &[5], &[20, 21], &[22, 255], &[0, 1, 2, 5, 20, 21, 22, 255]];
const SLICES: &[&[u8]] = &[&[2], &[3], &[0], &[0, 1, 2, 3], &[2, 3, 3], &[0, 1, 2, 3, 4, 128, 255]];
const LOG2_LENGTHS: &[&[u8]] = &[&[0, 1, 2, 3, 4], &[2], &[3], &[4], &[0, 1, 2, 3, 4, 5, 6, 7, 8]];
const STORES: &[u8] = &[0, 1, 2, 4, 5, 6, 7, 16, 26, 27, 27, 27, 27];
/// Parts in 256.
const RATES: &[u16] = &[0, 20, 128, 236, 256];

#[derive(Clone, Copy)]
enum Numbers {
    /// The running number goes up by one of these.
    Counting(&'static [u32]),
    /// What the last derivation gave.
    Derived,
    Below(u32),
    /// Near the highest number.
    Top,
    Any,
}

const NUMBERS: &[Numbers] = &[
    Numbers::Counting(&[1]),
    Numbers::Counting(&[1]),
    Numbers::Counting(&[0, 1, 1]),
    Numbers::Counting(&[1, 2, 4]),
    Numbers::Derived,
    Numbers::Below(2),
    Numbers::Below(12),
    Numbers::Top,
    Numbers::Any,
];

/// How often each kind of call comes, in parts; the first is whichever of get and put fits the lease.
const WEIGHTS: &[[u64; 9]] = &[
    [50, 2, 2, 2, 12, 20, 8, 1, 1],
    [80, 1, 1, 1, 5, 10, 2, 1, 1],
    [30, 1, 1, 6, 20, 40, 2, 1, 1],
    [40, 5, 5, 5, 20, 10, 10, 3, 4],
    [60, 1, 1, 8, 30, 0, 0, 1, 1],
    [11, 11, 11, 11, 11, 11, 11, 11, 11],
];

pub struct Caller {
    layers: &'static [u8],
    gaps: &'static [u32],
    limits: &'static [u8],
    slices: &'static [u8],
    log2_lengths: &'static [u8],
    numbers: Numbers,
    weights: [u64; 9],
    /// Parts in 256.
    marks: u16,
    wanted: u16,
    idrs: u16,
    /// How often a call that would be turned down is given up for another.
    patience: u32,
    /// The running number, once there is one.
    current: Option<u32>,
    group: Option<Group>,
}

impl Caller {
    pub fn new(rng: &mut Rng) -> Caller {
        let numbers = rng.pick(NUMBERS);
        // From the new state on such numbers are never due, and the store would fill with them.
        let never_due = matches!(numbers, Numbers::Top | Numbers::Any);
        Caller {
            layers: rng.pick(LAYERS),
            gaps: rng.pick(GAPS),
            limits: rng.pick(LIMITS),
            slices: rng.pick(SLICES),
            log2_lengths: rng.pick(LOG2_LENGTHS),
            numbers,
            weights: rng.pick(WEIGHTS),
            marks: rng.pick(RATES),
            wanted: if never_due { rng.pick(&[0, 0, 10]) } else { rng.pick(RATES) },
            idrs: rng.pick(&[0, 0, 4, 40]),
            patience: rng.pick(&[0, 1, 4, 8]),
            current: None,
            group: rng.chance(100).then(|| Group::new(rng)),
        }
    }

    /// The first call of a sequence.
    pub fn init(&self, rng: &mut Rng) -> Call {
        Call::Init { max_pb_size: rng.pick(STORES), max_num_ref_pics: rng.pick(&[0, 1, 5, 21]) }
    }

    /// The bytes of the next call: now and then they are damaged.
    pub fn next(&mut self, rng: &mut Rng, machine: &Machine) -> Vec<u8> {
        match self.next_call(rng, machine) {
            Some(call) => call.bytes().to_vec(),
            None => {
                let call = self.any_call(rng, machine);
                damaged(rng, &call)
            }
        }
    }

    /// None: damaged bytes are due.
    pub fn next_call(&mut self, rng: &mut Rng, machine: &Machine) -> Option<Call> {
        let mut call = self.kind_of_call(rng, machine)?;
        for _ in 0..self.patience {
            if moves(&papers::call(&mut machine.clone(), &call)) {
                break;
            }
            call = self.any_call(rng, machine);
        }
        Some(call)
    }

    /// A call whether or not it would be accepted; None: damaged bytes are due.
    pub fn kind_of_call(&mut self, rng: &mut Rng, machine: &Machine) -> Option<Call> {
        let mut at = rng.below(self.weights.iter().sum());
        let kind = self.weights.iter().position(|weight| {
            let here = at < *weight;
            at = at.wrapping_sub(*weight);
            here
        });
        Some(match (kind.unwrap(), &mut self.group) {
            (0, Some(group)) => group.next(rng, machine),
            (0, None) if machine.lease.present => self.put(rng, machine),
            (0 | 1, _) => Call::Get,
            (2, _) => self.put(rng, machine),
            (3, _) => self.put_of_no_picture(rng, machine),
            (4, _) => Call::Out,
            (5, _) => self.lists(rng, machine),
            (6, _) => self.derive(rng),
            (7, _) => limits(rng),
            _ => return None,
        })
    }

    pub fn any_call(&mut self, rng: &mut Rng, machine: &Machine) -> Call {
        loop {
            if let Some(call) = self.kind_of_call(rng, machine) {
                return call;
            }
        }
    }

    fn number(&mut self, rng: &mut Rng, machine: &Machine) -> u32 {
        if rng.below(60) == 0 {
            return rng.pick(&[0, 1, MAX_POC - 1, MAX_POC, MAX_POC + 1, u32::MAX]);
        }
        if rng.below(8) == 0 {
            // What waits behind this number is due after it.
            return machine.poc_next_output.min(MAX_POC);
        }
        match self.numbers {
            Numbers::Counting(steps) => {
                let current = self.running_number(rng, machine);
                self.current = Some((current + rng.pick(steps)).min(MAX_POC));
                current
            }
            Numbers::Derived => machine.record.poc_val as u32,
            Numbers::Below(n) => rng.below(u64::from(n)) as u32,
            Numbers::Top => MAX_POC - rng.below(12) as u32,
            Numbers::Any => rng.word() >> 1,
        }
    }

    /// Numbers that begin at the next output number stay near it, so that they are due in turn.
    fn running_number(&mut self, rng: &mut Rng, machine: &Machine) -> u32 {
        let next = machine.poc_next_output.min(MAX_POC);
        let current = *self.current.get_or_insert_with(|| rng.pick(&[next, next, next, 0, 100, MAX_POC - 60]));
        let ran_ahead = self.wanted > 0 && (next + 8..next + 90).contains(&current);
        if ran_ahead {
            next
        } else {
            current
        }
    }

    pub fn put(&mut self, rng: &mut Rng, machine: &Machine) -> Call {
        let mut flags = 0;
        for (flag, rate) in [(Put::REFERENCE, self.marks), (Put::WANTED, self.wanted), (Put::IDR, self.idrs)] {
            if rng.chance(rate) {
                flags |= flag;
            }
        }
        let poc = self.number(rng, machine);
        Call::Put(Put { flags, poc, temporal_id: rng.pick(self.layers), gap: self.gap(rng) })
    }

    fn gap(&self, rng: &mut Rng) -> u32 {
        let gaps = if rng.below(20) == 0 { rng.pick(GAPS) } else { self.gaps };
        rng.pick(gaps)
    }

    pub fn put_of_no_picture(&mut self, rng: &mut Rng, machine: &Machine) -> Call {
        let Call::Put(put) = self.put(rng, machine) else { unreachable!() };
        Call::Put(Put { flags: put.flags | Put::NO_PICTURE, ..put })
    }

    pub fn lists(&mut self, rng: &mut Rng, machine: &Machine) -> Call {
        let poc = self.near_a_reference(rng, machine);
        Call::Lists(Lists {
            slice_type: rng.pick(self.slices),
            poc,
            layer: if rng.below(4) == 0 { rng.pick(&[0, 1, 2, 3, 4, 5, 255]) } else { rng.pick(self.layers) },
            last_intra: self.last_intra(rng, machine, poc),
            limit: rng.pick(self.limits),
        })
    }

    /// Around the number of a marked picture, where the sides of the current number tell.
    fn near_a_reference(&mut self, rng: &mut Rng, machine: &Machine) -> u32 {
        let marked: Vec<u32> = machine.pic.iter().filter(|slot| slot.marked()).map(|slot| slot.poc).collect();
        if marked.is_empty() || rng.below(4) == 0 {
            return self.number(rng, machine);
        }
        rng.pick(&marked).saturating_add(rng.pick(&[0, 1, 1, 2, 3])).saturating_sub(rng.pick(&[0, 0, 0, 1, 2]))
    }

    fn last_intra(&mut self, rng: &mut Rng, machine: &Machine, poc: u32) -> i32 {
        match rng.below(12) {
            0 => rng.pick(&[i32::MIN, -2, i32::MAX]),
            1 => poc as i32,
            2 => (poc as i32).wrapping_sub(1),
            3 => poc.wrapping_add(1) as i32,
            4 => self.near_a_reference(rng, machine) as i32,
            5..=8 => 0,
            _ => -1,
        }
    }

    pub fn derive(&mut self, rng: &mut Rng) -> Call {
        // Long groups are rare: the original searches them step by step.
        let log2_length = match rng.below(400) {
            0 => rng.pick(&[9, 10, 11, 12, 13, 14, 15]),
            1..=4 => rng.pick(&[16, 31, 32, 255]),
            _ => rng.pick(self.log2_lengths),
        };
        let layer = match rng.below(30) {
            0 => log2_length.saturating_add(1),
            1 => rng.byte(),
            _ => rng.below(u64::from(log2_length) + 1) as u8,
        };
        Call::Derive { log2_length, layer }
    }
}

/// Accepted, and more than an output that hands over nothing.
pub fn moves(outcome: &Outcome) -> bool {
    !matches!(outcome, Err(_) | Ok(Answer::NotYet | Answer::NoMore))
}

fn limits(rng: &mut Rng) -> Call {
    let max_pb_size = rng.pick(&[0, 1, 5, 26, 27, 27, 27, 27, 27, 27, 27, 27, 28, 255]);
    Call::Init { max_pb_size, max_num_ref_pics: rng.pick(&[0, 20, 21, 21, 21, 22, 255]) }
}

/// A wanted picture that is not due waits for the numbers before it. The store would fill for good if those never
/// came, or if a lower number were handed over in between, which sets the next output number back.
pub fn due_soon(machine: &Machine, poc: u32) -> bool {
    let next = machine.poc_next_output;
    let wanted = || machine.pic.iter().filter(|slot| slot.wanted());
    let room = poc == next || wanted().count() < 12;
    let in_turn = room && poc >= next && wanted().all(|slot| slot.poc >= next);
    poc <= next.saturating_add(16) && (in_turn || wanted().next().is_none())
}

/// The bytes of a call with something wrong, mostly.
pub fn damaged(rng: &mut Rng, call: &Call) -> Vec<u8> {
    let mut bytes = call.bytes().to_vec();
    match rng.below(8) {
        0 => bytes.clear(),
        1 => drop(bytes.pop()),
        2 => bytes.push(rng.byte()),
        // A right check byte behind a wrong length.
        3 => bytes.push(0),
        4 => bytes.insert(rng.index(bytes.len()), 0),
        5 => bytes = (0..rng.below(16)).map(|_| rng.byte()).collect(),
        6 => wrong_first_bytes(rng, &mut bytes),
        _ => {
            let at = rng.index(bytes.len());
            bytes[at] ^= 1 << rng.below(8);
        }
    }
    bytes
}

/// An unknown call or bad flags, with the check byte made right.
fn wrong_first_bytes(rng: &mut Rng, bytes: &mut [u8]) {
    bytes[0] = rng.pick(&[0, 3, 3, 3, 7, 8, 255]);
    bytes[1] = rng.byte();
    let last = bytes.len() - 1;
    bytes[last] = 0;
    bytes[last] = bytes.iter().fold(0u8, |sum, byte| sum.wrapping_add(*byte)).wrapping_neg();
}
