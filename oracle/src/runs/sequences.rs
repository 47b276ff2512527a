//! Long random sequences of call bytes from the new state, on an original that stays live.

use crate::generate::calls::Caller;
use crate::generate::states::any_entry;
use crate::judge::{Judge, Sides, Verdict};
use crate::rng::Rng;

pub fn run(judge: &mut Judge, rng: &mut Rng, calls: u64) -> Verdict<()> {
    let end = judge.coverage.calls + calls;
    while judge.coverage.calls < end {
        sequence(judge, rng)?;
    }
    Ok(())
}

fn sequence(judge: &mut Judge, rng: &mut Rng) -> Verdict<()> {
    let mut caller = Caller::new(rng);
    let mut sides = Sides::new();
    judge.call(&mut sides, &caller.init(rng).bytes())?;
    for _ in 0..rng.pick(&[20, 100, 400, 1500]) {
        let bytes = caller.next(rng, &sides.machine);
        judge.call(&mut sides, &bytes)?;
        if rng.below(100) == 0 {
            copy(judge, rng, &mut sides)?;
        }
    }
    judge.settle(&mut sides)
}

/// A copy into the lists as the calls left them.
pub fn copy(judge: &mut Judge, rng: &mut Rng, sides: &mut Sides) -> Verdict<()> {
    let entry = any_entry(rng, &sides.machine);
    let far = rng.draw();
    let cnt = match rng.below(8) {
        0 => rng.pick(&[20, 21, 22, u64::MAX, far]),
        _ => rng.below(21),
    };
    let lidx = match rng.below(8) {
        0 => rng.pick(&[2, 3, u64::MAX, far]),
        _ => rng.below(2),
    };
    judge.copy(sides, cnt, lidx, &entry.encode())
}
