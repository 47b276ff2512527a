//! The comparison of the reasons: `why [quick] [--seed N] [--standin]`.

use oracle::judge::Difference;
use oracle::ours::{self, StandIn};
use oracle::rng::Rng;
use oracle::runs::why::{self, Sides};
use oracle::{ours_why, watch};
use std::process::ExitCode;

struct Options {
    quick: bool,
    seed: u64,
    standin: bool,
}

fn main() -> ExitCode {
    match options().and_then(|options| compare(&options)) {
        Ok(code) => ExitCode::from(code),
        Err(why) => {
            eprintln!("{why}");
            ExitCode::from(2)
        }
    }
}

/// `oracle/run` hands its words to every comparison, so `--calls` may stand here and says nothing.
fn options() -> Result<Options, String> {
    let mut options = Options { quick: false, seed: 1, standin: false };
    let mut words = std::env::args().skip(1);
    while let Some(word) = words.next() {
        let mut number = || words.next().and_then(|n| n.parse().ok()).ok_or(format!("{word} wants a number"));
        match word.as_str() {
            "quick" => options.quick = true,
            "--seed" => options.seed = number()?,
            "--calls" => _ = number()?,
            "--standin" => options.standin = true,
            _ => return Err(format!("{word}: why [quick] [--seed N] [--standin]")),
        }
    }
    Ok(options)
}

fn compare(options: &Options) -> Result<u8, String> {
    let ours = if options.standin {
        Some(Sides { calls: Box::new(StandIn), whys: Box::new(ours_why::StandIn) })
    } else {
        ours::linked().zip(ours_why::linked()).map(|(calls, whys)| Sides { calls, whys })
    };
    let ours = ours.ok_or("libpicman_ffi.a was not there when this was built")?;
    println!("ours: {}; seed {}", ours.calls.name(), options.seed);
    watch::start(options.seed);
    match why::run(ours, &mut Rng::new(options.seed), options.quick) {
        Ok(met) => {
            println!("{met}\n0 differences");
            Ok(0)
        }
        Err(Difference(why)) => {
            println!("DIFFERENCE of seed {}:\n{why}", options.seed);
            Ok(1)
        }
    }
}
