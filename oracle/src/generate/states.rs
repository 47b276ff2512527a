//! Whole states made directly, of every kind and not only those that calls lead to: holes between pictures, marks
//! and layers anywhere, any lists and any record.

use crate::image::{Entry, Machine, Record, Slot, LISTS, PLACES, SLOTS};
use crate::papers::MAX_POC;
use crate::rng::Rng;

/// How the numbers, layers and flags of one state are drawn.
struct Style {
    numbers: u8,
    layers: &'static [u8],
    marks: u16,
    wanted: u16,
}

pub fn whole_state(rng: &mut Rng) -> Machine {
    let style = Style {
        numbers: rng.below(5) as u8,
        layers: rng.pick(&[&[0][..], &[0, 1], &[0, 1, 2, 3, 4, 5, 255], &[1, 2], &[0, 0, 0, 0, 2]]),
        marks: rng.pick(&[0, 40, 128, 220, 256, 256]),
        wanted: rng.pick(&[0, 40, 128, 256]),
    };
    let mut machine = Machine::default();
    fill_store(rng, &style, &mut machine);
    limit_marks(rng, &mut machine);
    machine.cur_pb_size = machine.occupied() as u8;
    machine.cur_num_ref_pics = machine.marked() as u8;
    let any_size = rng.below(28) as u8;
    machine.max_pb_size = rng.pick(&[0, machine.cur_pb_size, 27, any_size]);
    machine.max_num_ref_pics = rng.below(22) as u8;
    machine.num_refp = [rng.pick(&[0, 1, 2, 20, 21]), rng.below(22) as u8];
    machine.poc_next_output = next_output(rng, &machine);
    machine.poc_increase = rng.pick(&[0, 1, 1, 2, 255]);
    fill_lists(rng, &style, &mut machine);
    machine.record = record(rng);
    machine
}

fn fill_store(rng: &mut Rng, style: &Style, machine: &mut Machine) {
    let mut buffers: [u8; SLOTS] = std::array::from_fn(|i| i as u8);
    rng.shuffle(&mut buffers);
    for (i, at) in occupied_slots(rng).into_iter().enumerate() {
        machine.pic[at] = picture(rng, style, buffers[i]);
    }
    let taken = machine.occupied();
    if taken < SLOTS && rng.chance(150) {
        machine.lease = picture(rng, style, buffers[taken]);
    }
}

/// Which slots hold a picture: packed in front, or behind, or anywhere.
fn occupied_slots(rng: &mut Rng) -> Vec<usize> {
    let any_count = rng.index(SLOTS + 1);
    let count = rng.pick(&[0, 1, 4, 5, 6, 7, 12, 20, 21, 22, 26, 26, 27, any_count, any_count, any_count]);
    let mut slots: Vec<usize> = (0..SLOTS).collect();
    match rng.below(5) {
        0 => {}
        1 => slots.reverse(),
        // Some in front, the rest behind: as calls leave it.
        2 => slots[rng.index(SLOTS)..].reverse(),
        _ => rng.shuffle(&mut slots),
    }
    slots.truncate(count);
    slots
}

fn picture(rng: &mut Rng, style: &Style, buf: u8) -> Slot {
    Slot {
        present: true,
        buf,
        is_ref: rng.chance(style.marks),
        need_for_out: rng.chance(style.wanted),
        temporal_id: rng.pick(style.layers),
        poc: number(rng, style),
        list_poc: words(rng),
    }
}

fn number(rng: &mut Rng, style: &Style) -> u32 {
    match style.numbers {
        0 => rng.below(3) as u32,
        1 => rng.below(40) as u32,
        2 => MAX_POC - rng.below(20) as u32,
        3 => 4 * rng.below(16) as u32,
        _ => any_number(rng),
    }
}

fn any_number(rng: &mut Rng) -> u32 {
    let any = rng.word() >> 1;
    rng.pick(&[0, 1, MAX_POC, any])
}

fn words(rng: &mut Rng) -> [u32; PLACES] {
    let any = rng.chance(128);
    std::array::from_fn(|_| if any { rng.word() } else { rng.below(8) as u32 })
}

/// Now and then exactly so many marked as stands at a limit.
fn limit_marks(rng: &mut Rng, machine: &mut Machine) {
    let most = rng.pick(&[SLOTS, SLOTS, SLOTS, 1, 4, 5, 6, 21, 22]);
    let mut order: Vec<usize> = (0..SLOTS).filter(|i| machine.pic[*i].marked()).collect();
    rng.shuffle(&mut order);
    for i in order.into_iter().skip(most) {
        machine.pic[i].is_ref = false;
    }
}

fn next_output(rng: &mut Rng, machine: &Machine) -> u32 {
    let (near, any) = (rng.pick(&machine.pic).poc, rng.word());
    rng.pick(&[0, near, near + 1, near.saturating_sub(1), MAX_POC, u32::MAX, any])
}

fn fill_lists(rng: &mut Rng, style: &Style, machine: &mut Machine) {
    // The Rust has no buffer number without a picture; a few such lists go to the specification alone.
    let odd = rng.below(40) == 0;
    let filled = rng.pick(&[0, 128, 256]);
    for lidx in 0..LISTS {
        for i in 0..PLACES {
            machine.refp[lidx][i] = entry(rng, style, filled, odd);
        }
    }
}

fn entry(rng: &mut Rng, style: &Style, filled: u16, odd: bool) -> Entry {
    let present = rng.chance(filled);
    let (held, any) = (rng.below(27) as u8, rng.byte());
    let buf = if present || odd { rng.pick(&[0, held, any]) } else { 0 };
    let poc = if rng.chance(10) { rng.word() } else { number(rng, style) };
    Entry { present, buf, poc, list_poc: words(rng) }
}

/// An entry for a copy.
pub fn any_entry(rng: &mut Rng, machine: &Machine) -> Entry {
    let lidx = rng.index(LISTS);
    let listed = rng.pick(&machine.refp[lidx]);
    if rng.chance(128) {
        return listed;
    }
    let poc = if rng.chance(64) { listed.poc } else { rng.word() };
    let present = rng.chance(200);
    let buf = if present { rng.byte() } else { 0 };
    Entry { present, buf, poc, list_poc: words(rng) }
}

pub fn record(rng: &mut Rng) -> Record {
    let previous = rng.pick(&[0, 1, 8, MAX_POC, MAX_POC - 1, MAX_POC + 1, u32::MAX]);
    let near = previous.wrapping_sub(rng.pick(&[0, 1, 15, 16, 255, 256, 32_767, 32_768]));
    let any = rng.word() >> 1;
    Record {
        poc_val: rng.word() as i32,
        prev_poc_val: rng.pick(&[previous, near, any]),
        prev_doc_offset: offset(rng),
    }
}

fn offset(rng: &mut Rng) -> i32 {
    match rng.below(12) {
        0 => rng.pick(&[-1, i32::MIN, 32_768, i32::MAX]),
        1 => rng.pick(&[32_766, 32_767]),
        2 => (1 << rng.below(15)) - 1,
        3 => rng.below(32_768) as i32,
        _ => rng.below(17) as i32,
    }
}
