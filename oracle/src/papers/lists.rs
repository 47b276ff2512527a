//! "Lists": the marked pictures that the two reference lists of a slice hold, old ones passed over.

use super::whole::whole;
use super::MAX_POC;
use crate::call::{Answer, Lists, Outcome};
use crate::image::{Entry, Machine, Slot, PLACES};

pub const SLICE_I: u8 = 1;
const SLICE_P: u8 = 2;
pub const SLICE_B: u8 = 3;

pub fn lists(machine: &mut Machine, request: &Lists) -> Outcome {
    if asks_for_lists(machine, request)? {
        let (forward, backward) = Walks::new(machine, request).taken()?;
        write(machine, 0, &forward);
        write(machine, 1, &backward);
    }
    Ok(Answer::Counts(machine.num_refp[0], machine.num_refp[1]))
}

/// Whether a walk meets an old picture before its list is full. The Rust never returns from there, so the specification
/// decides, which passes over the picture.
pub fn meets_old(machine: &Machine, request: &Lists) -> bool {
    if asks_for_lists(machine, request) != Ok(true) {
        return false;
    }
    let mut walks = Walks::new(machine, request);
    let _ = walks.taken();
    walks.met_old
}

/// The same request with no age test, on the machine whose old pictures are unmarked: to pass over is to leave out.
pub fn less_old(machine: &Machine, request: &Lists) -> (Machine, Lists) {
    let mut left = machine.clone();
    left.pic.iter_mut().filter(|slot| old(request, slot)).for_each(|slot| slot.is_ref = false);
    left.cur_num_ref_pics = left.marked() as u8;
    (left, Lists { last_intra: -1, ..*request })
}

/// Slice I asks for none.
fn asks_for_lists(machine: &Machine, request: &Lists) -> Result<bool, u8> {
    if !whole(machine) {
        return Err(7);
    }
    if request.poc > MAX_POC {
        return Err(6);
    }
    Ok(request.slice_type != SLICE_I)
}

/// The marked pictures in both orders, and whether an old one was met on the way.
struct Walks<'a> {
    request: &'a Lists,
    down: Vec<Slot>,
    up: Vec<Slot>,
    met_old: bool,
}

impl Walks<'_> {
    fn new<'a>(machine: &Machine, request: &'a Lists) -> Walks<'a> {
        let down = ordered(machine);
        let up = down.iter().rev().copied().collect();
        Walks { request, down, up, met_old: false }
    }

    fn taken(&mut self) -> Result<(Vec<Slot>, Vec<Slot>), u8> {
        if self.down.len() > PLACES {
            return Err(8);
        }
        if self.down.is_empty() {
            return Err(9);
        }
        let is_b = self.request.slice_type == SLICE_B;
        let mut forward = Vec::new();
        self.pass(Side::Lower, &mut forward);
        if is_b {
            self.pass(Side::Higher, &mut forward);
        }
        if forward.is_empty() {
            return Err(11);
        }
        let mut backward = Vec::new();
        if is_b {
            self.pass(Side::Higher, &mut backward);
            self.pass(Side::Lower, &mut backward);
        }
        Ok((forward, backward))
    }

    /// One walk, down for the lower numbers and up for the higher ones: it stops when the list is full. An old
    /// picture, where the age test applies, is left out and leaves the bound alone.
    fn pass(&mut self, side: Side, list: &mut Vec<Slot>) {
        let request = self.request;
        let mut bound = first_bound(request);
        let walk = match side {
            Side::Lower => &self.down,
            Side::Higher => &self.up,
        };
        for slot in walk {
            if list.len() >= usize::from(request.limit) {
                break;
            }
            if age_test_applies(request) && old(request, slot) {
                self.met_old = true;
                continue;
            }
            let on_side = match side {
                Side::Lower => slot.poc < request.poc,
                Side::Higher => slot.poc > request.poc,
            };
            if on_side && slot.temporal_id <= bound {
                list.push(*slot);
                bound = next_bound(request, slot);
            }
        }
    }
}

/// By number, highest first, equal numbers in slot order.
pub(super) fn ordered(machine: &Machine) -> Vec<Slot> {
    let mut order: Vec<Slot> = Vec::with_capacity(PLACES);
    for slot in machine.pic.iter().filter(|slot| slot.marked()) {
        let at = order.iter().position(|other| other.poc < slot.poc).unwrap_or(order.len());
        order.insert(at, *slot);
    }
    order
}

#[derive(Clone, Copy)]
enum Side {
    Lower,
    Higher,
}

pub(super) fn old(request: &Lists, slot: &Slot) -> bool {
    let last_intra = i64::from(request.last_intra);
    last_intra >= 0 && i64::from(request.poc) >= last_intra && i64::from(slot.poc) < last_intra
}

pub(super) fn age_test_applies(request: &Lists) -> bool {
    request.slice_type != SLICE_P || request.layer == 0
}

/// The highest layer that a pass takes at its start; 255 bounds nothing.
pub(super) fn first_bound(request: &Lists) -> u8 {
    match (request.slice_type, request.layer) {
        (SLICE_P, 1) => 1,
        (SLICE_P, _) => 255,
        (_, layer) => layer.max(1) - 1,
    }
}

/// The same once a picture has been taken.
pub(super) fn next_bound(request: &Lists, taken: &Slot) -> u8 {
    match (request.slice_type, request.layer) {
        (SLICE_P, 0) => 255,
        (SLICE_P, _) => 1,
        _ => taken.temporal_id.max(1) - 1,
    }
}

/// All entries lose flag and buffer number and keep the rest; then those taken are written from the front.
fn write(machine: &mut Machine, lidx: usize, list: &[Slot]) {
    for entry in &mut machine.refp[lidx] {
        *entry = Entry { present: false, buf: 0, ..*entry };
    }
    for (entry, slot) in machine.refp[lidx].iter_mut().zip(list) {
        *entry = Entry { present: true, buf: slot.buf, poc: slot.poc, list_poc: slot.list_poc };
    }
    machine.num_refp[lidx] = list.len() as u8;
}
