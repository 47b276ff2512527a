//! The program of the specification driven by the original: call lines in, answer lines out, made to be timed.
//! It tests what costs nothing (3, 4, 6, 15, 18) and leaves the rest to the original, which may panic or never
//! return. `rustline generate N SEED [every]` writes a file of N call lines: mostly accepted, and without calls
//! on which the original does that; with `every`, refusals of every kind.

use oracle::call::Reply;
use oracle::generate::lines::{LineMaker, Refusals};
use oracle::lines::{answer_line, call_of};
use oracle::original::Original;
use std::io::{self, BufRead, BufReader, BufWriter, Write};
use std::process::ExitCode;

const BUFFER: usize = 1 << 16;

fn main() -> ExitCode {
    let words: Vec<String> = std::env::args().skip(1).collect();
    let words: Vec<&str> = words.iter().map(String::as_str).collect();
    let done = match words[..] {
        [] => answer_lines(),
        ["generate", count, seed] => generate(count, seed, Refusals::Few),
        ["generate", count, seed, "every"] => generate(count, seed, Refusals::Every),
        _ => Err(io::Error::other("rustline < LINES | rustline generate N SEED [every]")),
    };
    match done {
        Ok(()) => ExitCode::SUCCESS,
        Err(why) => {
            eprintln!("{why}");
            ExitCode::from(2)
        }
    }
}

fn answer_lines() -> io::Result<()> {
    let mut input = BufReader::with_capacity(BUFFER, io::stdin().lock());
    let mut output = BufWriter::with_capacity(BUFFER, io::stdout().lock());
    let mut original = Original::default();
    let mut line = Vec::with_capacity(64);
    while input.read_until(b'\n', &mut line)? > 0 {
        let text = line.strip_suffix(b"\n").unwrap_or(&line);
        output.write_all(&answer_line(&answer(&mut original, text)))?;
        line.clear();
    }
    output.flush()
}

fn answer(original: &mut Original, line: &[u8]) -> Reply {
    match call_of(line) {
        None => Reply::BAD,
        Some(call) => Reply::new(call.code(), original.guarded(&call)),
    }
}

fn generate(count: &str, seed: &str, refusals: Refusals) -> io::Result<()> {
    let number = |word: &str| word.parse::<u64>().map_err(io::Error::other);
    let count = number(count)?;
    let mut maker = LineMaker::new(count, number(seed)?, refusals);
    let mut output = io::stdout().lock();
    let mut lines = Vec::with_capacity(2 * BUFFER);
    for _ in 0..count {
        maker.push(&mut lines);
        if lines.len() > BUFFER {
            output.write_all(&lines)?;
            lines.clear();
        }
    }
    output.write_all(&lines)
}
