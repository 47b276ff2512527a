//! Document 02, "Tell me why it is not in the list", in plain Rust: the passes of the forward list are walked, and each
//! picture is judged when its turn comes.

use super::lists::{age_test_applies, first_bound, lists, next_bound, old, ordered, SLICE_B, SLICE_I};
use crate::call::Lists;
use crate::image::{Machine, Slot};

#[derive(Clone, Copy, Debug, PartialEq)]
pub enum Reason {
    Taken(u8),
    NotMarked,
    Full,
    Old,
    SameNumber,
    OtherSide,
    LayerOverBound,
    NoListAsked,
}

impl Reason {
    /// The two bytes of the library.
    pub fn bytes(self) -> [u8; 2] {
        match self {
            Reason::Taken(place) => [0, place],
            Reason::NotMarked => [1, 0],
            Reason::Full => [2, 0],
            Reason::Old => [3, 0],
            Reason::SameNumber => [4, 0],
            Reason::OtherSide => [5, 0],
            Reason::LayerOverBound => [6, 0],
            Reason::NoListAsked => [7, 0],
        }
    }
}

/// The refusals of the list call, then 14, then the reason.
pub fn why(machine: &Machine, request: &Lists, slot: u8) -> Result<Reason, u8> {
    lists(&mut machine.clone(), request)?;
    let picture = machine.pic.get(usize::from(slot)).filter(|picture| picture.present).ok_or(14)?;
    if request.slice_type == SLICE_I {
        return Ok(Reason::NoListAsked);
    }
    if !picture.is_ref {
        return Ok(Reason::NotMarked);
    }
    Ok(judged(machine, request, picture))
}

/// Whether a picture has its turn in the pass upwards.
pub fn turns_up(request: &Lists, picture: &Slot) -> bool {
    request.slice_type == SLICE_B && picture.poc > request.poc
}

/// The marked pictures in the order of their turns.
pub fn turns(machine: &Machine, request: &Lists) -> Vec<Slot> {
    let order = ordered(machine);
    let down = order.iter().filter(|picture| !turns_up(request, picture));
    let up = order.iter().rev().filter(|picture| turns_up(request, picture));
    down.chain(up).copied().collect()
}

/// A pass only takes pictures of its side, and those have their turns in it; so the list grows turn by turn.
fn judged(machine: &Machine, request: &Lists, asked: &Slot) -> Reason {
    let mut taken = 0;
    let mut bound = first_bound(request);
    let mut up = false;
    for picture in turns(machine, request) {
        if turns_up(request, &picture) && !up {
            up = true;
            bound = first_bound(request);
        }
        let reason = at_turn(request, &picture, taken, bound);
        if picture.buf == asked.buf {
            return reason;
        }
        if let Reason::Taken(_) = reason {
            taken += 1;
            bound = next_bound(request, &picture);
        }
    }
    unreachable!("a marked picture has a turn")
}

fn at_turn(request: &Lists, picture: &Slot, taken: u8, bound: u8) -> Reason {
    let is_old = age_test_applies(request) && old(request, picture);
    let side = turns_up(request, picture) || picture.poc < request.poc;
    if taken >= request.limit {
        Reason::Full
    } else if is_old {
        Reason::Old
    } else if picture.poc == request.poc {
        Reason::SameNumber
    } else if !side {
        Reason::OtherSide
    } else if picture.temporal_id > bound {
        Reason::LayerOverBound
    } else {
        Reason::Taken(taken)
    }
}
