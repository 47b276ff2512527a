//! A timer over the comparison: a call that should return and does not is a difference too.

use std::sync::atomic::{AtomicU64, Ordering::Relaxed};
use std::time::Duration;
use std::{process, thread};

static STEPS: AtomicU64 = AtomicU64::new(0);

/// One call begins.
pub fn step() {
    STEPS.store(STEPS.load(Relaxed) + 1, Relaxed);
}

/// Ends the program if one call takes longer than a minute.
pub fn start(seed: u64) {
    thread::spawn(move || loop {
        let before = STEPS.load(Relaxed);
        thread::sleep(Duration::from_secs(60));
        if STEPS.load(Relaxed) == before {
            println!("DIFFERENCE: call {before} of seed {seed} has not returned for a minute");
            process::exit(1);
        }
    });
}
