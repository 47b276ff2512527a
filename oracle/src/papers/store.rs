//! "Get", "Put", "Out" and "Init".

use super::marking::{flush, marking};
use super::whole::whole;
use super::MAX_POC;
use crate::call::{Answer, Outcome, Put};
use crate::image::{Machine, Slot, PLACES, SLOTS};

pub fn init(machine: &mut Machine, max_pb_size: u8, max_num_ref_pics: u8) -> Outcome {
    if !whole(machine) {
        return Err(7);
    }
    if usize::from(max_pb_size) > SLOTS || usize::from(max_num_ref_pics) > PLACES {
        return Err(1);
    }
    machine.max_pb_size = max_pb_size;
    machine.max_num_ref_pics = max_num_ref_pics;
    machine.poc_increase = 1;
    machine.lease = Slot::default();
    Ok(Answer::Done)
}

pub fn get(machine: &mut Machine) -> Outcome {
    if !whole(machine) {
        return Err(7);
    }
    if machine.lease.present {
        return Err(3);
    }
    if let Some(i) = machine.pic.iter().position(idle) {
        machine.lease = machine.pic[i];
        machine.pic[i..].rotate_left(1);
        machine.pic[SLOTS - 1] = Slot::default();
        machine.cur_pb_size -= 1;
    } else if machine.occupied() >= usize::from(machine.max_pb_size) {
        return Err(2);
    } else {
        machine.lease = Slot { present: true, buf: smallest_free_buffer(machine), ..Slot::default() };
    }
    Ok(shown(&machine.lease))
}

fn idle(slot: &Slot) -> bool {
    slot.present && !slot.is_ref && !slot.need_for_out
}

fn smallest_free_buffer(machine: &Machine) -> u8 {
    let is_held = |buf: &u8| machine.pic.iter().any(|slot| slot.present && slot.buf == *buf);
    (0..).find(|buf| !is_held(buf)).unwrap()
}

fn shown(slot: &Slot) -> Answer {
    Answer::Picture { buf: slot.buf, poc: slot.poc }
}

pub fn put(machine: &mut Machine, put: &Put) -> Outcome {
    if !whole(machine) {
        return Err(7);
    }
    if put.has(Put::NO_PICTURE) {
        mark(machine, put);
        return Ok(Answer::Done);
    }
    if put.poc > MAX_POC {
        return Err(6);
    }
    if !machine.lease.present {
        return Err(4);
    }
    let mut marked = machine.clone();
    mark(&mut marked, put);
    let place = if put.has(Put::REFERENCE) {
        usize::from(marked.cur_num_ref_pics)
    } else {
        marked.pic.iter().rposition(|slot| !slot.present).unwrap()
    };
    if marked.pic[place].present {
        return Err(5);
    }
    *machine = marked;
    place_lease(machine, put, place);
    Ok(shown(&machine.pic[place]))
}

fn mark(machine: &mut Machine, put: &Put) {
    if put.has(Put::IDR) {
        flush(machine);
    } else if put.temporal_id == 0 {
        marking(machine, put.gap);
    }
}

/// The leased picture takes number, layer, flags and the forward list's numbers, and goes to its place.
fn place_lease(machine: &mut Machine, put: &Put, place: usize) {
    let mut picture = std::mem::take(&mut machine.lease);
    picture.poc = put.poc;
    picture.temporal_id = put.temporal_id;
    picture.is_ref = put.has(Put::REFERENCE);
    picture.need_for_out = put.has(Put::WANTED);
    for i in 0..usize::from(machine.num_refp[0]) {
        picture.list_poc[i] = machine.refp[0][i].poc;
    }
    machine.pic[place] = picture;
    machine.cur_pb_size += 1;
    machine.cur_num_ref_pics += u8::from(picture.is_ref);
}

pub fn out(machine: &mut Machine) -> Outcome {
    if !whole(machine) {
        return Err(7);
    }
    let next = machine.poc_next_output;
    if let Some(slot) = machine.pic.iter_mut().find(|slot| slot.wanted() && slot.poc <= next) {
        slot.need_for_out = false;
        machine.poc_next_output = slot.poc + u32::from(machine.poc_increase);
        return Ok(shown(slot));
    }
    let any_wanted = machine.pic.iter().any(Slot::wanted);
    Ok(if any_wanted { Answer::NotYet } else { Answer::NoMore })
}
