//! States that break one rule of a whole state, and only that one.

use crate::image::{Machine, Slot, PLACES, SLOTS};
use crate::papers::whole::{rules, RULES};
use crate::papers::MAX_POC;
use crate::rng::Rng;

/// A whole state made to break the rule. None where this state cannot be made to break it alone.
pub fn broken(rng: &mut Rng, whole: &Machine, rule: usize) -> Option<Machine> {
    let mut machine = whole.clone();
    match rule {
        0 => machine.max_pb_size = rng.pick(&[28, 29, 255]),
        1 => machine.max_num_ref_pics = rng.pick(&[22, 23, 255]),
        2 => machine.num_refp[rng.index(2)] = rng.pick(&[22, 23, 255]),
        3 => machine.cur_pb_size = other(rng, machine.cur_pb_size),
        4 => machine.cur_num_ref_pics = other(rng, machine.cur_num_ref_pics),
        5 => disturb(rng, machine.pic.iter_mut().filter(|slot| !slot.present).last()?),
        6 => disturb(rng, Some(&mut machine.lease).filter(|lease| !lease.present)?),
        7 => any_held(rng, &mut machine)?.buf = rng.pick(&[27, 28, 128, 255]),
        8 => share_a_buffer(rng, &mut machine)?,
        _ => any_held(rng, &mut machine)?.poc = rng.pick(&[MAX_POC + 1, MAX_POC + 2, u32::MAX]),
    }
    let kept = rules(&machine);
    let only_that = (0..RULES.len()).all(|other| kept[other] == (other != rule));
    only_that.then_some(machine)
}

fn other(rng: &mut Rng, count: u8) -> u8 {
    let any = rng.byte();
    rng.pick(&[count.wrapping_add(1), count.wrapping_sub(1), any])
}

/// One field of an empty place.
fn disturb(rng: &mut Rng, slot: &mut Slot) {
    match rng.below(6) {
        0 => slot.buf = 1 + rng.below(255) as u8,
        1 => slot.is_ref = true,
        2 => slot.need_for_out = true,
        3 => slot.temporal_id = 1 + rng.below(255) as u8,
        4 => slot.poc = 1 << rng.below(32),
        _ => slot.list_poc[rng.index(PLACES)] = 1 << rng.below(32),
    }
}

/// A picture in a slot, or the lease.
fn any_held<'a>(rng: &mut Rng, machine: &'a mut Machine) -> Option<&'a mut Slot> {
    let start = rng.index(SLOTS + 1);
    let at = (0..=SLOTS).map(|i| (start + i) % (SLOTS + 1)).find(|i| place(machine, *i).present)?;
    Some(place(machine, at))
}

fn place(machine: &mut Machine, i: usize) -> &mut Slot {
    if i == SLOTS {
        &mut machine.lease
    } else {
        &mut machine.pic[i]
    }
}

fn share_a_buffer(rng: &mut Rng, machine: &mut Machine) -> Option<()> {
    let buf = any_held(rng, machine)?.buf;
    any_held(rng, machine)?.buf = buf;
    Some(())
}
