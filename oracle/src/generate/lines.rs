//! Files of call lines from the new state on, for the benchmark and for the list of answers that the gate replays.

use super::calls::{damaged, due_soon, Caller};
use super::group::Group;
use crate::call::{Answer, Call, Outcome, Put};
use crate::image::Machine;
use crate::lines::{call_of, push_line};
use crate::papers;
use crate::rng::Rng;

/// What a file may hold beside accepted calls.
#[derive(Clone, Copy, PartialEq)]
pub enum Refusals {
    /// A few, and none on which the original panics or never returns.
    Few,
    /// Any.
    Every,
}

pub struct LineMaker {
    rng: Rng,
    group: Group,
    caller: Caller,
    machine: Machine,
    refusals: Refusals,
    /// Lines that still come from groups of pictures, and then from the caller at hand.
    grouped: u64,
    left: u64,
}

impl LineMaker {
    /// The first half of the lines are groups of pictures in decoding order, the rest anything.
    pub fn new(count: u64, seed: u64, refusals: Refusals) -> LineMaker {
        let mut rng = Rng::new(seed);
        let (group, caller) = (Group::new(&mut rng), Caller::new(&mut rng));
        LineMaker { rng, group, caller, machine: Machine::default(), refusals, grouped: count / 2, left: 0 }
    }

    /// Appends one call line.
    pub fn push(&mut self, out: &mut Vec<u8>) {
        if self.machine.max_pb_size == 0 {
            self.push_init(out);
        } else if self.grouped > 0 {
            self.grouped -= 1;
            self.push_grouped(out);
        } else if self.left == 0 {
            self.left = 40 + self.rng.below(400);
            self.caller = Caller::new(&mut self.rng);
            self.push_init(out);
        } else {
            self.left -= 1;
            self.push_any(out);
        }
    }

    fn push_init(&mut self, out: &mut Vec<u8>) {
        let call = Call::Init { max_pb_size: 27, max_num_ref_pics: 21 };
        papers::call(&mut self.machine, &call).expect("an init within the limits is accepted");
        push_line(out, &call.bytes());
    }

    fn push_grouped(&mut self, out: &mut Vec<u8>) {
        if self.rng.chance(4) {
            return self.push_damaged(out);
        }
        let call = self.group.next(&mut self.rng, &self.machine);
        // What would be turned down is left out, and what the original would not answer; the group goes on without it.
        if !self.hangs(&call) && papers::call(&mut self.machine, &call).is_ok() {
            push_line(out, &call.bytes());
        } else {
            self.push_damaged(out);
        }
    }

    fn push_any(&mut self, out: &mut Vec<u8>) {
        loop {
            let Some(call) = self.any_call() else {
                if self.rng.chance(32) {
                    return self.push_damaged(out);
                }
                continue;
            };
            let mut after = self.machine.clone();
            let outcome = papers::call(&mut after, &call);
            if self.fits(&call, &outcome) {
                self.machine = after;
                return push_line(out, &call.bytes());
            }
        }
    }

    fn any_call(&mut self) -> Option<Call> {
        match self.refusals {
            Refusals::Few => self.caller.next_call(&mut self.rng, &self.machine),
            Refusals::Every => self.caller.kind_of_call(&mut self.rng, &self.machine),
        }
    }

    /// An old reference is met, and the original is to answer.
    fn hangs(&self, call: &Call) -> bool {
        self.refusals == Refusals::Few && papers::meets_old(&self.machine, call)
    }

    fn fits(&mut self, call: &Call, outcome: &Outcome) -> bool {
        if self.hangs(call) {
            return false;
        }
        match (outcome, self.refusals) {
            (Ok(Answer::NotYet | Answer::NoMore), _) => self.rng.chance(32),
            (Ok(_), _) => !fills_the_store(call, &self.machine),
            (Err(_), Refusals::Every) => self.rng.chance(100),
            (Err(5 | 8..=11), Refusals::Few) => false,
            // The original has no limit on a derived number.
            (Err(6), Refusals::Few) if matches!(call, Call::Derive { .. }) => false,
            (Err(_), Refusals::Few) => self.rng.chance(16),
        }
    }

    /// A line that is no call: by its bytes, or by its text.
    fn push_damaged(&mut self, out: &mut Vec<u8>) {
        let call = self.caller.any_call(&mut self.rng, &self.machine);
        let start = out.len();
        if self.rng.chance(128) {
            push_line(out, &damaged(&mut self.rng, &call));
        } else {
            push_line(out, &call.bytes());
            let at = start + self.rng.index(out.len() - start);
            damage_text(&mut self.rng, out, at);
        }
        if call_of(&out[start..out.len() - 1]).is_some() {
            out.truncate(start);
            out.push(b'\n');
        }
    }
}

/// The lines never start again, so the store must not fill with pictures that are never due.
fn fills_the_store(call: &Call, machine: &Machine) -> bool {
    match call {
        Call::Put(put) if !put.has(Put::NO_PICTURE) => put.has(Put::WANTED) && !due_soon(machine, put.poc),
        _ => false,
    }
}

fn damage_text(rng: &mut Rng, out: &mut Vec<u8>, at: usize) {
    match rng.below(3) {
        0 => out.insert(at, rng.pick(b" \r\tg:/`@0\0\xff")),
        1 => out[at..].make_ascii_uppercase(),
        _ => drop(out.remove(at)),
    }
    if out.last() != Some(&b'\n') {
        out.push(b'\n');
    }
}
