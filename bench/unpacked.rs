//! `get` of an idle picture on the machine of include/picman.h, in two forms: `packed` works on the slots as they lie in memory, `unpacked`
//! reads them into options, works there, and writes them back. Both turn down a state that is not whole first.

use std::hint::black_box;
use std::time::Instant;

const SLOTS: usize = 27;
const ROUNDS: u32 = 200_000;
const STATE_NOT_WHOLE: u64 = 7;
const PICTURE_LEASED: u64 = 3;
const STORE_FULL: u64 = 2;

type Keys = [u64; SLOTS];
type Registers = [u32; 13];

#[derive(Clone, Copy)]
struct Pic {
    poc: u32,
    buffer: u8,
    temporal_id: u8,
    is_ref: bool,
    need_for_out: bool,
}

fn unpack(key: u64) -> Option<Pic> {
    (key != 0).then(|| Pic {
        poc: (key >> 16) as u32,
        buffer: (key >> 3 & 31) as u8,
        temporal_id: (key >> 8) as u8,
        is_ref: key & 2 != 0,
        need_for_out: key & 4 != 0,
    })
}

fn pack(slot: Option<Pic>) -> u64 {
    slot.map_or(0, |pic| {
        (pic.poc as u64) << 16
            | (pic.temporal_id as u64) << 8
            | (pic.buffer as u64) << 3
            | (pic.need_for_out as u64) << 2
            | (pic.is_ref as u64) << 1
            | 1
    })
}

struct Tally {
    held: u32,
    full: u8,
    marked: u8,
}

impl Tally {
    #[inline(always)]
    fn add(&mut self, key: u64) -> bool {
        let buffer = key >> 3 & 31;
        if key & 1 == 0 || key >> 16 > 0x7fff_ffff || buffer > 26 || self.held >> buffer & 1 == 1 {
            return false;
        }
        self.held |= 1 << buffer;
        self.full += 1;
        self.marked += (key >> 1 & 1) as u8;
        true
    }

    #[inline(always)]
    fn fits(&self, lease: u64, registers: &Registers) -> bool {
        let free = lease == 0 || (lease & 1 == 1 && lease >> 3 & 31 <= 26 && self.held >> (lease >> 3 & 31) & 1 == 0);
        free && self.full as u32 == registers[8] && self.marked as u32 == registers[9]
    }
}

const EMPTY: Tally = Tally { held: 0, full: 0, marked: 0 };

fn lease_of(registers: &Registers) -> u64 {
    registers[0] as u64 | (registers[1] as u64) << 32
}

fn is_whole(keys: &Keys, registers: &Registers) -> bool {
    let mut tally = EMPTY;
    for three in keys.chunks_exact(3) {
        if three[0] | three[1] | three[2] != 0 && !three.iter().all(|&key| key == 0 || tally.add(key)) {
            return false;
        }
    }
    tally.fits(lease_of(registers), registers)
}

#[inline(never)]
fn packed(keys: &mut Keys, registers: &mut Registers) -> u64 {
    if !is_whole(keys, registers) {
        return STATE_NOT_WHOLE;
    }
    if lease_of(registers) != 0 {
        return PICTURE_LEASED;
    }
    let Some(pos) = keys.iter().position(|key| key & 7 == 1) else {
        return STORE_FULL;
    };
    let lease = std::mem::take(&mut keys[pos]);
    keys[pos..].rotate_left(1);
    registers[0] = lease as u32;
    registers[1] = (lease >> 32) as u32;
    registers[8] -= 1;
    lease >> 3 & 31
}

struct EvcPm {
    pic: [Option<Pic>; SLOTS],
    pic_lease: Option<Pic>,
    cur_pb_size: u8,
}

impl EvcPm {
    #[inline(always)]
    fn read(keys: &Keys, registers: &Registers) -> Option<EvcPm> {
        let mut tally = EMPTY;
        let mut pic = [None; SLOTS];
        for (slot, &key) in pic.iter_mut().zip(keys) {
            if key != 0 {
                if !tally.add(key) {
                    return None;
                }
                *slot = unpack(key);
            }
        }
        let lease = lease_of(registers);
        tally.fits(lease, registers).then(|| EvcPm {
            pic,
            pic_lease: unpack(lease),
            cur_pb_size: tally.full,
        })
    }

    #[inline(always)]
    fn write(&self, keys: &mut Keys, registers: &mut Registers) {
        for (key, &slot) in keys.iter_mut().zip(&self.pic) {
            *key = pack(slot);
        }
        let lease = pack(self.pic_lease);
        registers[0] = lease as u32;
        registers[1] = (lease >> 32) as u32;
        registers[8] = self.cur_pb_size as u32;
    }

    fn get(&mut self) -> u64 {
        if self.pic_lease.is_some() {
            return PICTURE_LEASED;
        }
        let idle = |slot: &Option<Pic>| slot.is_some_and(|pic| !pic.is_ref && !pic.need_for_out);
        let Some(pos) = self.pic.iter().position(idle) else {
            return STORE_FULL;
        };
        self.pic_lease = self.pic[pos].take();
        self.pic[pos..].rotate_left(1);
        self.cur_pb_size -= 1;
        self.pic_lease.map_or(0, |pic| pic.buffer as u64)
    }
}

#[inline(never)]
fn unpacked(keys: &mut Keys, registers: &mut Registers) -> u64 {
    let Some(mut pm) = EvcPm::read(keys, registers) else {
        return STATE_NOT_WHOLE;
    };
    let answer = pm.get();
    if pm.pic_lease.is_some() {
        pm.write(keys, registers);
    }
    answer
}

/// The best time of a call, nanoseconds, and the sum of the answers, on a store with `full` pictures of which the middle one is idle.
fn time(call: fn(&mut Keys, &mut Registers) -> u64, full: usize) -> (f64, u64) {
    let mut keys = [0; SLOTS];
    for i in 0..full {
        let flags = if i == full / 2 { 1 } else { 5 };
        keys[SLOTS - 1 - i] = (i as u64) << 16 | (i as u64) << 3 | flags;
    }
    let mut registers = [0; 13];
    registers[8] = full as u32;
    let mut best = f64::MAX;
    let mut sum = 0;
    for _ in 0..25 {
        let begin = Instant::now();
        sum = 0;
        for _ in 0..ROUNDS {
            let mut keys = black_box(keys);
            let mut registers = black_box(registers);
            sum += call(&mut keys, &mut registers);
            black_box((keys[0], registers[0]));
        }
        best = best.min(begin.elapsed().as_nanos() as f64 / ROUNDS as f64);
    }
    (best, sum)
}

fn main() {
    println!("| Pictures | Packed, ns | Unpacked, ns | Ratio |");
    println!("|---:|---:|---:|---:|");
    for full in [1, 10, 20, 27] {
        let (a, first) = time(packed, full);
        let (b, second) = time(unpacked, full);
        assert_eq!(first, second);
        println!("| {full} | {a:.1} | {b:.1} | {:.2} |", b / a);
    }
}
