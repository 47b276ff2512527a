//! The comparison: `oracle [quick] [--seed N] [--calls N] [--standin]`.
//!
//! `oracle answers` reads call lines and answers them by the original where it decides and by the specification
//! elsewhere. `oracle child` is what the comparison starts to run the original alone.

use oracle::call::Reply;
use oracle::coverage::Coverage;
use oracle::image::Machine;
use oracle::judge::{Difference, Judge};
use oracle::original::Original;
use oracle::ours::{self, Ours, StandIn};
use oracle::papers::{self, whole::RULES};
use oracle::rng::Rng;
use oracle::running::library;
use oracle::runs::{exhaustive, frames, images, running, sequences, states, tables};
use oracle::samples::Why;
use oracle::{children, lines, watch};
use std::io::{self, BufRead, Write};
use std::process::ExitCode;

struct Options {
    quick: bool,
    seed: u64,
    calls: u64,
    standin: bool,
}

fn main() -> ExitCode {
    let words: Vec<String> = std::env::args().skip(1).collect();
    match words.first().map(String::as_str) {
        Some("child") => ended(children::main(&words[1..])),
        Some("answers") => ended(answers().map(|()| 0).map_err(|why| why.to_string())),
        _ => ended(options(&words).and_then(|options| compare(&options))),
    }
}

fn ended(result: Result<u8, String>) -> ExitCode {
    match result {
        Ok(code) => ExitCode::from(code),
        Err(why) => {
            eprintln!("{why}");
            ExitCode::from(2)
        }
    }
}

fn options(words: &[String]) -> Result<Options, String> {
    let mut options = Options { quick: false, seed: 1, calls: 0, standin: false };
    let mut words = words.iter();
    while let Some(word) = words.next() {
        let mut number = || words.next().and_then(|n| n.parse().ok()).ok_or(format!("{word} wants a number"));
        match word.as_str() {
            "quick" => options.quick = true,
            "--seed" => options.seed = number()?,
            "--calls" => options.calls = number()?,
            "--standin" => options.standin = true,
            _ => return Err(format!("{word}: oracle [quick] [--seed N] [--calls N] [--standin]")),
        }
    }
    if options.calls == 0 {
        options.calls = if options.quick { 300_000 } else { 10_000_000 };
    }
    Ok(options)
}

fn compare(options: &Options) -> Result<u8, String> {
    const NOT_LINKED: &str = "libpicman_ffi.a was not there when this was built";
    let (linked, linked_running) = (ours::linked().ok_or(NOT_LINKED), library::linked().ok_or(NOT_LINKED));
    let ours: Box<dyn Ours> = if options.standin { Box::new(StandIn) } else { linked? };
    let ours_running = if options.standin { Box::new(library::StandIn) } else { linked_running? };
    println!("ours: {}", ours.name());
    println!("the Rust: revc's picman.rs, evc_poc_derivation and depth tables, unchanged");
    println!("compared after every call: its status, its answer and all 6,407 bytes of the image,");
    println!("and the same by the running machine, loaded and saved, and in place");
    println!("seed {}, about {} random calls", options.seed, options.calls);
    watch::start(options.seed);

    let mut judge = Judge::new(ours, ours_running, options.seed);
    let compared = all_runs(&mut judge, options);
    let calls = judge.coverage.calls;
    if let Err(Difference(why)) = compared {
        println!("DIFFERENCE at call {calls} of seed {}:\n{why}", options.seed);
        return Ok(1);
    }
    println!("{}", judge.coverage);
    println!("{}", judge.running.coverage);
    let missing = [judge.coverage.missing(), judge.running.coverage.missing()].concat();
    if !missing.is_empty() {
        println!("not met, so this run says too little: {}", missing.join("; "));
        return Ok(1);
    }
    let Coverage { judged_by_rust, no_counterpart, less_old, .. } = judge.coverage;
    let (met_old, listed) = judge.coverage.met_old();
    println!("{judged_by_rust} calls were decided by the Rust: answer and image agree with it in every byte;");
    println!("{met_old} met an old reference, where the definition decides, and agree with it; of the {listed} accepted");
    println!("  among them, {less_old} have the lists of the Rust without its age test on the state less its old marks;");
    println!("{no_counterpart} were accepted on lists that the Rust cannot hold and agree with the specification;");
    println!("the others were turned down with the specification's number and changed nothing.");
    println!("{calls} calls, 0 differences");
    Ok(0)
}

fn all_runs(judge: &mut Judge, options: &Options) -> Result<(), Difference> {
    let mut rng = Rng::new(options.seed);
    let rng = &mut rng;
    let frames = frames::run(judge)?;
    println!("{frames} frames of the specification hold");
    images::run(judge, rng)?;
    let depths = tables::depths(judge)?;
    println!(
        "depth tables: {} places agree; of the refused ones the Rust panics on {}, holds 0xff in {}, gives a depth in {}",
        depths.accepted, depths.panics, depths.filler, depths.added
    );
    tables::derivations(judge, options.quick)?;
    phase(judge, "frames, images, tables and derivations");
    exhaustive::run(judge, options.quick)?;
    phase(judge, "short sequences, all of them");
    sequences::run(judge, rng, options.calls / 2)?;
    phase(judge, "long random sequences");
    states::run_whole(judge, rng, options.calls * 3 / 10)?;
    phase(judge, "made states");
    let broken = states::run_broken(judge, rng, options.calls / 10)?;
    states::run_flipped(judge, rng, options.calls / 10)?;
    phase(judge, "broken and flipped states");
    running::run_lengths(judge, rng)?;
    running::run_any_bits(judge, rng, options.calls / 10)?;
    for (rule, count) in RULES.iter().zip(broken) {
        println!("  {count:>10}  states break only: {rule}");
    }
    run_children(judge)
}

fn phase(judge: &Judge, what: &str) {
    println!("{:>10} calls after {what}", judge.coverage.calls);
}

/// Holds the original to the specification where it says that the Rust asserts, panics or never returns.
fn run_children(judge: &Judge) -> Result<(), Difference> {
    println!("the original alone, in child processes, where the specification says that it does not answer:");
    for kept in &judge.samples.kept {
        let reason = match kept.why {
            Why::Refused(refusal) => format!("refusal {refusal:>2}"),
            Why::OldMet => "an old reference met".to_string(),
        };
        let ran = children::run(kept).map_err(|why| Difference(format!("{reason}: {why}")))?;
        let fate = children::fate_words(kept.why);
        println!("  {reason}: {fate} in {ran} of {ran}, chosen from {} met", kept.met);
    }
    Ok(())
}

/// Answers by the original where it decides, by the papers elsewhere.
fn answers() -> io::Result<()> {
    let (mut original, mut machine) = (Original::default(), Machine::default());
    let mut out = io::BufWriter::new(io::stdout().lock());
    for line in io::stdin().lock().split(b'\n') {
        let reply = match lines::call_of(&line?) {
            None => Reply::BAD,
            Some(call) => {
                let met_old = papers::meets_old(&machine, &call);
                let by_papers = papers::call(&mut machine, &call);
                let decides = papers::rust_decides(&by_papers, met_old);
                if met_old && by_papers.is_ok() {
                    original = Original::from_machine(&machine).expect("a run's lists are the Rust's too");
                }
                Reply::new(call.code(), if decides { original.call(&call) } else { by_papers })
            }
        };
        out.write_all(&lines::answer_line(&reply))?;
    }
    out.flush()
}
