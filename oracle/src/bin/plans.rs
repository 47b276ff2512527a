//! The comparison of the group planner: `plans [quick] [--seed N] [--standin]`.

use oracle::judge::Difference;
use oracle::rng::Rng;
use oracle::runs::plans;
use oracle::{ours_plan, watch};
use std::process::ExitCode;

struct Options {
    quick: bool,
    seed: u64,
    standin: bool,
}

fn main() -> ExitCode {
    match options().and_then(|options| compare(&options)) {
        Ok(code) => ExitCode::from(code),
        Err(why) => {
            eprintln!("{why}");
            ExitCode::from(2)
        }
    }
}

/// `oracle/run` hands its words to both comparisons, so `--calls` may stand here and says nothing.
fn options() -> Result<Options, String> {
    let mut options = Options { quick: false, seed: 1, standin: false };
    let mut words = std::env::args().skip(1);
    while let Some(word) = words.next() {
        let mut number = || words.next().and_then(|n| n.parse().ok()).ok_or(format!("{word} wants a number"));
        match word.as_str() {
            "quick" => options.quick = true,
            "--seed" => options.seed = number()?,
            "--calls" => _ = number()?,
            "--standin" => options.standin = true,
            _ => return Err(format!("{word}: plans [quick] [--seed N] [--standin]")),
        }
    }
    Ok(options)
}

fn compare(options: &Options) -> Result<u8, String> {
    let linked = ours_plan::linked().ok_or("libpicman_ffi.a was not there when this was built");
    let ours = if options.standin { ours_plan::stand_in } else { linked? };
    println!("ours: {}", if options.standin { "the stand-in (NOT our library)" } else { "libpicman_ffi.a" });
    println!("the Rust: revc's decide_normal_gop, unchanged; seed {}", options.seed);
    watch::start(options.seed);
    match plans::run(ours, &mut Rng::new(options.seed), options.quick) {
        Ok(met) => {
            println!("{met}\n0 differences");
            Ok(0)
        }
        Err(Difference(why)) => {
            println!("DIFFERENCE of seed {}:\n{why}", options.seed);
            Ok(1)
        }
    }
}
