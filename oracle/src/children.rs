//! Runs the original alone in a child process on calls where the specification says that it asserts, panics or never
//! returns, and holds it to that.

use crate::call::{Call, Outcome};
use crate::image::{Entry, Image, Machine, ENTRY_BYTES, IMAGE_BYTES, PLACES};
use crate::judge::{described, hex};
use crate::lines;
use crate::original::Original;
use crate::samples::{Kept, Request, Sample, Why};
use std::io::{Read, Write};
use std::process::{Child, Command, Stdio};
use std::time::{Duration, Instant};
use std::{env, thread};

/// A call takes microseconds, so one that is still running by then is not going to return.
const PATIENCE: Duration = Duration::from_secs(2);

#[derive(Debug, PartialEq)]
enum Fate {
    Panics(&'static str),
    NeverReturns,
    Returns(u8),
}

/// Runs the kept samples of one reason; gives the number of those that met their fate, or the first that did not.
pub fn run(kept: &Kept) -> Result<usize, String> {
    let children: Vec<Child> = kept.samples.iter().map(spawn).collect();
    let start = Instant::now();
    for (child, sample) in children.into_iter().zip(&kept.samples) {
        let fate = fate_of(kept.why, sample);
        let (code, stderr) = ended(child, start);
        if !met(&fate, code, &stderr) {
            let what = format!("{:?}: expected {fate:?}, exit {code:?}", sample.request);
            return Err(format!("{what}\n{stderr}\non\n{}", described(&sample.machine)));
        }
    }
    Ok(kept.samples.len())
}

/// The specification's last column, with the words of the original's own assertions.
fn fate_of(why: Why, sample: &Sample) -> Fate {
    let Why::Refused(refusal) = why else {
        return Fate::NeverReturns;
    };
    match refusal {
        5 => Fate::Panics("assertion failed: self.pic[pos as usize].is_none()"),
        8 => Fate::Panics("index out of bounds: the len is 21 but the index is 21"),
        9 | 11 => Fate::Panics("assertion failed: x"),
        15 => Fate::NeverReturns,
        _ if same_number_first(sample) => Fate::Returns(13),
        _ => Fate::Panics("index out of bounds"),
    }
}

/// The same for the report.
pub fn fate_words(why: Why) -> &'static str {
    match why {
        Why::Refused(8) => "an index out of bounds",
        Why::Refused(15) | Why::OldMet => "never returns",
        Why::Refused(14) => "an index out of bounds, or the same number found before that,",
        _ => "a failed assertion",
    }
}

/// Refusal 14 is a panic "or twin": whether a copy finds the entry's number before it leaves the list.
fn same_number_first(sample: &Sample) -> bool {
    let Request::Copy(cnt, lidx @ 0..=1, entry) = &sample.request else {
        return false;
    };
    let first = (*cnt).min(PLACES as u64) as usize;
    sample.machine.refp[*lidx as usize][..first].iter().any(|other| other.poc == entry.poc)
}

fn met(fate: &Fate, code: Option<i32>, stderr: &str) -> bool {
    match fate {
        Fate::Panics(words) => code == Some(101) && stderr.contains(words),
        Fate::NeverReturns => code.is_none(),
        Fate::Returns(refusal) => code == Some(i32::from(*refusal)),
    }
}

fn spawn(sample: &Sample) -> Child {
    let mut command = Command::new(env::current_exe().unwrap());
    command.arg("child").env("RUST_BACKTRACE", "0");
    match &sample.request {
        Request::Call(call) => command.args(["call", &hex(&call.bytes())]),
        Request::Copy(cnt, lidx, entry) => {
            command.args(["copy", &cnt.to_string(), &lidx.to_string(), &hex(&entry.encode())])
        }
    };
    command.stdin(Stdio::piped()).stdout(Stdio::null()).stderr(Stdio::piped());
    let mut child = command.spawn().unwrap();
    let mut image = [0; IMAGE_BYTES];
    sample.machine.encode(&mut image);
    child.stdin.take().unwrap().write_all(&image).unwrap();
    child
}

/// The exit code and what was written; no code for one that had to be killed.
fn ended(mut child: Child, start: Instant) -> (Option<i32>, String) {
    let code = loop {
        if let Some(status) = child.try_wait().unwrap() {
            break status.code();
        }
        if start.elapsed() > PATIENCE {
            child.kill().unwrap();
            child.wait().unwrap();
            break None;
        }
        thread::sleep(Duration::from_millis(1));
    };
    let mut stderr = String::new();
    let _ = child.stderr.take().unwrap().read_to_string(&mut stderr);
    (code, stderr)
}

/// The child: an image on standard input, a call in the arguments. Gives the exit status: 0, or the refusal.
pub fn main(words: &[String]) -> Result<u8, String> {
    let mut image: Image = [0; IMAGE_BYTES];
    std::io::stdin().read_exact(&mut image).map_err(|why| why.to_string())?;
    let machine = Machine::decode(&image).ok_or("no image")?;
    let mut original = Original::from_machine(&machine).ok_or("no such state in the Rust")?;
    let outcome = match words {
        [kind, call] if kind == "call" => {
            let bytes = lines::bytes_of(call.as_bytes()).ok_or("no hex")?;
            original.call(&Call::parse(&bytes).ok_or("no call")?)
        }
        [kind, cnt, lidx, entry] if kind == "copy" => copy(&mut original, cnt, lidx, entry)?,
        _ => return Err("child call HEX | child copy CNT LIDX ENTRY".to_string()),
    };
    Ok(outcome.err().unwrap_or(0))
}

fn copy(original: &mut Original, cnt: &str, lidx: &str, entry: &str) -> Result<Outcome, String> {
    let place = |word: &str| word.parse::<u64>().map(|n| n as usize).map_err(|why| why.to_string());
    let bytes = lines::bytes_of(entry.as_bytes()).ok_or("no hex")?;
    let bytes: [u8; ENTRY_BYTES] = bytes.try_into().map_err(|_| "no entry")?;
    let entry = Entry::decode(&bytes).ok_or("no entry")?;
    Ok(original.copy(place(cnt)?, place(lidx)?, &entry))
}
