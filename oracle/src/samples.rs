//! Calls on which the specification says that the Rust asserts, panics or never returns: an even choice of those met,
//! kept to be run in child processes at the end. Calls that meet an old reference are among them, accepted ones too.

use crate::call::Call;
use crate::image::{Entry, Machine};
use crate::papers::poc;
use crate::rng::Rng;

/// A sample that never returns costs its whole time, so few are kept.
const NEVER_RETURNS_KEPT: usize = 3;
const PANICS_KEPT: usize = 40;

/// What is asked of a machine: a call, or a copy with count, list and entry.
#[derive(Clone, Debug)]
pub enum Request {
    Call(Call),
    Copy(u64, u64, Entry),
}

impl Request {
    /// Whether the original can be asked this, and the fate that the specification tells of is its own.
    fn in_rust(&self, machine: &Machine) -> bool {
        match self {
            // The limits on L and on the record are the specification's own.
            Request::Call(Call::Derive { log2_length, .. }) => {
                *log2_length <= 15 && !poc::bad_record(&machine.record)
            }
            Request::Call(_) => true,
            Request::Copy(_, _, entry) => entry.in_rust(),
        }
    }
}

#[derive(Clone)]
pub struct Sample {
    pub machine: Machine,
    pub request: Request,
}

/// Why the original does not answer: with one of our refusals, or because an old reference is met.
#[derive(Clone, Copy, Debug, PartialEq)]
pub enum Why {
    Refused(u8),
    OldMet,
}

/// The samples of one reason.
pub struct Kept {
    pub why: Why,
    pub never_returns: bool,
    pub met: u64,
    pub samples: Vec<Sample>,
}

pub struct Samples {
    rng: Rng,
    pub kept: Vec<Kept>,
}

impl Samples {
    pub fn new(seed: u64) -> Samples {
        let kept = |why| {
            let never_returns = matches!(why, Why::OldMet | Why::Refused(15));
            Kept { why, never_returns, met: 0, samples: Vec::new() }
        };
        let refusals = [5, 8, 9, 11, 14, 15].map(Why::Refused);
        Samples { rng: Rng::new(seed), kept: refusals.into_iter().chain([Why::OldMet]).map(kept).collect() }
    }

    /// Each of those met is as likely to be kept as any other.
    pub fn offer(&mut self, why: Why, machine: &Machine, request: Request) {
        let Some(kept) = self.kept.iter_mut().find(|kept| kept.why == why) else {
            return;
        };
        if !machine.lists_in_rust() || !request.in_rust(machine) {
            return;
        }
        kept.met += 1;
        let room = if kept.never_returns { NEVER_RETURNS_KEPT } else { PANICS_KEPT };
        let place = if kept.samples.len() < room { kept.samples.len() } else { self.rng.index(kept.met as usize) };
        if place < room {
            let sample = Sample { machine: machine.clone(), request };
            match kept.samples.get_mut(place) {
                Some(other) => *other = sample,
                None => kept.samples.push(sample),
            }
        }
    }
}
