//! The edges of the C functions: wrong lengths, flag bytes that are neither 0 nor 1, and the new machine.

use crate::call::Call;
use crate::generate::states::whole_state;
use crate::image::{Image, Machine, ENTRY_BYTES, IMAGE_BYTES};
use crate::judge::{Difference, Judge, Sides, Verdict};
use crate::original::Original;
use crate::rng::Rng;

pub fn run(judge: &mut Judge, rng: &mut Rng) -> Verdict<()> {
    new_machine(judge)?;
    wrong_lengths(judge, rng)?;
    wrong_flags(judge, rng)?;
    wrong_entries(judge, rng)
}

/// The new machine is the original's, over whatever stood there.
fn new_machine(judge: &mut Judge) -> Verdict<()> {
    let mut image: Image = [0xa5; IMAGE_BYTES];
    let mut expected = [0; IMAGE_BYTES];
    Original::default().write_image(&mut expected);
    let status = judge.ours.new_machine(&mut image);
    if status != 0 || image != expected {
        return Err(Difference(format!("the new machine: status {status}, or other bytes than the Rust's")));
    }
    for len in [0, IMAGE_BYTES - 1, IMAGE_BYTES + 1] {
        let mut bytes = vec![0xa5; len];
        if judge.ours.new_machine(&mut bytes) != 18 || bytes.iter().any(|byte| *byte != 0xa5) {
            return Err(Difference(format!("a new machine in {len} bytes is not refused")));
        }
    }
    Ok(())
}

fn wrong_lengths(judge: &mut Judge, rng: &mut Rng) -> Verdict<()> {
    let (call, entry) = (Call::Get.bytes(), [0; ENTRY_BYTES]);
    for len in [0, 1, 93, IMAGE_BYTES - 1, IMAGE_BYTES + 1, 2 * IMAGE_BYTES] {
        let mut bytes = vec![0; len];
        judge.no_image(&mut bytes, &call, &mut [0xaa; 8], &entry)?;
    }
    let machine = whole_state(rng);
    for (answer, entry) in [(0, 0), (7, ENTRY_BYTES - 1), (9, ENTRY_BYTES + 1), (16, 2 * ENTRY_BYTES)] {
        let mut sides = Sides::from_machine(&machine);
        judge.no_image(&mut sides.image[..], &call, &mut vec![0xaa; answer], &vec![0; entry])?;
    }
    Ok(())
}

/// Each flag byte of an image in turn: those are the places where a 2 is not read back.
fn wrong_flags(judge: &mut Judge, rng: &mut Rng) -> Verdict<()> {
    for at in 0..IMAGE_BYTES {
        let machine = Machine::default();
        let mut sides = Sides::from_machine(&machine);
        sides.image[at] = 2 + rng.below(254) as u8;
        if Machine::decode(&sides.image).is_none() {
            judge.no_image(&mut sides.image[..], &Call::Out.bytes(), &mut [0xaa; 8], &[0; ENTRY_BYTES])?;
        }
    }
    Ok(())
}

fn wrong_entries(judge: &mut Judge, rng: &mut Rng) -> Verdict<()> {
    for flag in [2, 3, 128, 255] {
        let mut entry = [0; ENTRY_BYTES];
        entry[0] = flag;
        judge.copy(&mut Sides::from_machine(&whole_state(rng)), 0, 0, &entry)?;
    }
    Ok(())
}
