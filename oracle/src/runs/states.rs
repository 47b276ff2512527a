//! Calls on states made directly: whole ones of every kind, ones that break one rule, and ones with flipped bits.

use super::sequences::copy;
use crate::call::{Call, Lists};
use crate::generate::broken::broken;
use crate::generate::calls::Caller;
use crate::generate::states::whole_state;
use crate::image::{Machine, IMAGE_BYTES};
use crate::judge::{Difference, Judge, Sides, Verdict};
use crate::papers::whole::{rules, whole, RULES};
use crate::rng::Rng;

pub fn run_whole(judge: &mut Judge, rng: &mut Rng, calls: u64) -> Verdict<()> {
    let end = judge.coverage.calls + calls;
    while judge.coverage.calls < end {
        let machine = whole_state(rng);
        if !whole(&machine) {
            return Err(Difference(format!("a state made to be whole is not: {:?}", rules(&machine))));
        }
        each_call(judge, rng, &machine)?;
        random_calls(judge, rng, &machine)?;
    }
    Ok(())
}

/// Every kind of call on the same state.
fn each_call(judge: &mut Judge, rng: &mut Rng, machine: &Machine) -> Verdict<()> {
    let mut caller = Caller::new(rng);
    let mut calls = vec![Call::Init { max_pb_size: 27, max_num_ref_pics: 21 }, Call::Get, Call::Out];
    calls.extend([caller.put(rng, machine), caller.put_of_no_picture(rng, machine)]);
    calls.extend([caller.lists(rng, machine), caller.derive(rng)]);
    calls.push(Call::Lists(Lists { slice_type: 1, poc: 0, layer: 0, last_intra: 0, limit: 0 }));
    for call in calls {
        judge.call(&mut Sides::from_machine(machine), &call.bytes())?;
    }
    copy(judge, rng, &mut Sides::from_machine(machine))
}

/// A few calls one after the other.
fn random_calls(judge: &mut Judge, rng: &mut Rng, machine: &Machine) -> Verdict<()> {
    let mut caller = Caller::new(rng);
    let mut sides = Sides::from_machine(machine);
    for _ in 0..rng.pick(&[4, 8, 24]) {
        let bytes = caller.next(rng, &sides.machine);
        judge.call(&mut sides, &bytes)?;
        if rng.below(20) == 0 {
            copy(judge, rng, &mut sides)?;
        }
    }
    Ok(())
}

/// Gives how many states broke each rule.
pub fn run_broken(judge: &mut Judge, rng: &mut Rng, calls: u64) -> Verdict<[u64; RULES.len()]> {
    let mut counts = [0; RULES.len()];
    let end = judge.coverage.calls + calls;
    while judge.coverage.calls < end {
        let machine = whole_state(rng);
        for (rule, count) in counts.iter_mut().enumerate() {
            if let Some(machine) = broken(rng, &machine, rule) {
                each_call(judge, rng, &machine)?;
                *count += 1;
            }
        }
    }
    Ok(counts)
}

/// Flipped bits: the state may be whole, broken, or no image at all.
pub fn run_flipped(judge: &mut Judge, rng: &mut Rng, calls: u64) -> Verdict<()> {
    let end = judge.coverage.calls + calls;
    while judge.coverage.calls < end {
        let machine = whole_state(rng);
        let mut sides = Sides::from_machine(&machine);
        for _ in 0..rng.pick(&[1, 1, 2, 5]) {
            sides.image[rng.index(IMAGE_BYTES)] ^= 1 << rng.below(8);
        }
        let bytes = Caller::new(rng).any_call(rng, &machine).bytes();
        match Sides::from_image(&sides.image) {
            Some(flipped) => each_call(judge, rng, &flipped.machine)?,
            None => judge.no_image(&mut sides.image[..], &bytes, &mut [0xaa; 8], &machine.refp[0][0].encode())?,
        }
    }
    Ok(())
}
