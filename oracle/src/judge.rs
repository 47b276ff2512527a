//! One call on three sides: ours, the original where it decides, and the papers for every refusal and for every call
//! that meets an old reference.

use crate::call::{Call, Lists, Outcome, Reply, BAD_LINE};
use crate::coverage::Coverage;
use crate::image::{field_name, Entry, Image, Machine, ENTRY_BYTES, IMAGE_BYTES, STATE_BYTES};
use crate::original::Original;
use crate::ours::Ours;
use crate::papers::{self, whole::whole};
use crate::running::judge::{Judged, RunningJudge};
use crate::running::library::OursRunning;
use crate::running::Running;
use crate::samples::{Request, Samples, Why};
use crate::watch;
use std::fmt::Write;
use std::panic::{catch_unwind, AssertUnwindSafe};

/// What was found, in words.
pub struct Difference(pub String);

pub type Verdict<T> = Result<T, Difference>;

/// One machine: as our image, by the specification, and as a live original once one is needed; from the new state on also as
/// our running machine.
pub struct Sides {
    pub image: Box<Image>,
    pub machine: Machine,
    original: Option<Original>,
    running: Option<Box<Running>>,
}

impl Sides {
    pub fn from_machine(machine: &Machine) -> Sides {
        let mut image = Box::new([0; IMAGE_BYTES]);
        machine.encode(&mut image);
        Sides { image, machine: machine.clone(), original: None, running: None }
    }

    /// The program's start, with an original and a running machine that stay live from call to call.
    pub fn new() -> Sides {
        let running = Some(Box::new(Running::new()));
        Sides { original: Some(Original::default()), running, ..Sides::from_machine(&Machine::default()) }
    }

    /// None where a flag byte is neither 0 nor 1.
    pub fn from_image(image: &Image) -> Option<Sides> {
        let machine = Machine::decode(image)?;
        Some(Sides { image: Box::new(*image), machine, original: None, running: None })
    }
}

impl Default for Sides {
    fn default() -> Self {
        Sides::new()
    }
}

pub struct Judge {
    pub ours: Box<dyn Ours>,
    pub running: RunningJudge,
    pub coverage: Coverage,
    pub samples: Samples,
}

impl Judge {
    pub fn new(ours: Box<dyn Ours>, running: Box<dyn OursRunning>, seed: u64) -> Judge {
        let running = RunningJudge::new(running);
        Judge { ours, running, coverage: Coverage::default(), samples: Samples::new(seed) }
    }

    /// One call, from its bytes.
    pub fn call(&mut self, sides: &mut Sides, bytes: &[u8]) -> Verdict<Reply> {
        watch::step();
        let before = *sides.image;
        let mut answer = [0xaa; 8];
        let status = self.ours.call(&mut sides.image[..], bytes, &mut answer);

        let call = Call::parse(bytes);
        let machine_before = sides.machine.clone();
        let met_old = call.is_some_and(|call| papers::meets_old(&sides.machine, &call));
        let outcome = call.map(|call| papers::call(&mut sides.machine, &call));
        let reply = match (call, outcome) {
            (Some(call), Some(outcome)) => Reply::new(call.code(), outcome),
            _ => Reply::BAD,
        };
        self.coverage.call(call.as_ref(), reply.status, met_old);

        let expected = match (call, outcome) {
            (Some(Call::Lists(request)), Some(outcome)) if met_old => {
                self.by_definition(sides, &before, &request, outcome)
            }
            (Some(call), Some(outcome)) => self.expected(sides, &before, &Request::Call(call), outcome),
            _ => Ok(before),
        };
        let found = expected.and_then(|expected| {
            agree("status", &[reply.status], &[status])?;
            agree("answer", &reply.bytes(), &answer)?;
            same_images(sides, &expected)
        });
        let found = found.and_then(|()| {
            let machine_before = &machine_before;
            let (after, machine_after) = (&*sides.image, &sides.machine);
            let call = call.as_ref();
            let judged = Judged { before: &before, machine_before, bytes, call, reply, after, machine_after };
            self.running.judged(&judged)?;
            sides.running.as_mut().map_or(Ok(()), |live| self.running.in_place(live, &judged))
        });
        let asked = || format!("call {}, ours answers {}\n{call:?}", hex(bytes), hex(&answer));
        found.map_err(|why| report(&why, &asked(), &before))?;

        if let Some(call) = call {
            if let Some(Ok(_)) = outcome {
                self.coverage.accepted(&call, &machine_before, &sides.machine, &reply);
            }
            let why = if met_old { Why::OldMet } else { Why::Refused(reply.status) };
            self.samples.offer(why, &machine_before, Request::Call(call));
        }
        Ok(reply)
    }

    /// The end of a sequence: the running machine on which its calls went in place is saved and compared.
    pub fn settle(&mut self, sides: &mut Sides) -> Verdict<()> {
        let Some(live) = &mut sides.running else {
            return Ok(());
        };
        self.running.coverage.sequences += 1;
        let settled = self.running.settle(live, &sides.image);
        settled.map_err(|why| report(&why, "at the end of a sequence", &sides.image))
    }

    /// One copy, from the bytes of its entry.
    pub fn copy(&mut self, sides: &mut Sides, cnt: u64, lidx: u64, bytes: &[u8; ENTRY_BYTES]) -> Verdict<()> {
        watch::step();
        let before = *sides.image;
        let status = self.ours.copy_refp(&mut sides.image[..], cnt, lidx, bytes);

        let entry = Entry::decode(bytes);
        let machine_before = sides.machine.clone();
        let outcome = entry.map(|entry| papers::copy::copy(&mut sides.machine, cnt, lidx, &entry));
        let expected_status = outcome.map_or(BAD_LINE, |outcome| outcome.err().unwrap_or(0));
        self.coverage.copy(expected_status);

        let expected = match (entry, outcome) {
            (Some(entry), Some(outcome)) => {
                self.expected(sides, &before, &Request::Copy(cnt, lidx, entry), outcome)
            }
            _ => Ok(before),
        };
        let found = expected.and_then(|expected| {
            agree("status", &[expected_status], &[status])?;
            same_images(sides, &expected)?;
            let (live, machines) = (sides.running.as_deref_mut(), (&machine_before, &sides.machine));
            self.running.copied(live, (cnt, lidx), bytes, machines, expected_status)
        });
        let asked = || format!("copy to place {cnt} of list {lidx}, ours answers {status}\n{entry:?}");
        found.map_err(|why| report(&why, &asked(), &before))?;
        if let (Some(entry), 14) = (entry, expected_status) {
            self.samples.offer(Why::Refused(14), &sides.machine, Request::Copy(cnt, lidx, entry));
        }
        Ok(())
    }

    /// The image that the call must leave. Where the Rust decides it is what the original leaves, else what was.
    fn expected(
        &mut self,
        sides: &mut Sides,
        before: &Image,
        request: &Request,
        outcome: Outcome,
    ) -> Result<Image, String> {
        if !papers::rust_decides(&outcome, false) {
            return Ok(*before);
        }
        let live = sides.original.take().filter(|_| in_rust(request));
        let Some(mut original) = live.or_else(|| revived(before, request)) else {
            self.coverage.no_counterpart += 1;
            return Ok(encoded(&sides.machine));
        };
        let ran = catch_unwind(AssertUnwindSafe(|| match request {
            Request::Call(call) => original.call(call),
            Request::Copy(cnt, lidx, entry) => original.copy(*cnt as usize, *lidx as usize, entry),
        }));
        let by_rust = ran.map_err(|_| format!("the Rust panics, and the specification says {outcome:?}"))?;
        if by_rust != outcome {
            return Err(format!("the Rust says {by_rust:?}, and the specification {outcome:?}"));
        }
        self.coverage.judged_by_rust += 1;

        let mut image = [0; IMAGE_BYTES];
        original.write_image(&mut image);
        if whole(&sides.machine) {
            sides.original = Some(original);
        } else {
            // Only lists and record were the original's.
            image[..STATE_BYTES].copy_from_slice(&before[..STATE_BYTES]);
        }
        Ok(image)
    }

    /// The image that a list call leaves which meets an old reference. The original can't make that call, but asked
    /// without its age test on the state whose old pictures are unmarked it must build the same lists.
    fn by_definition(
        &mut self,
        sides: &mut Sides,
        before: &Image,
        request: &Lists,
        outcome: Outcome,
    ) -> Result<Image, String> {
        if outcome.is_err() {
            return Ok(*before);
        }
        sides.original = None;
        let machine = Machine::decode(before).ok_or("no image")?;
        let (less_old, request) = papers::lists::less_old(&machine, request);
        if let Some(mut original) = Original::from_machine(&less_old) {
            let ran = catch_unwind(AssertUnwindSafe(|| original.call(&Call::Lists(request))));
            let by_rust = ran.map_err(|_| "the Rust panics on the state less its old marks")?;
            let built = original.to_machine();
            if (by_rust, &built.refp, built.num_refp) != (outcome, &sides.machine.refp, sides.machine.num_refp) {
                return Err(format!("the Rust builds other lists on the state less its old marks: {by_rust:?}"));
            }
            self.coverage.less_old += 1;
        }
        Ok(encoded(&sides.machine))
    }

    /// Bytes that are no image: 18, and nothing is written.
    pub fn no_image(&mut self, bytes: &mut [u8], call: &[u8], answer: &mut [u8], entry: &[u8]) -> Verdict<()> {
        watch::step();
        let before = (bytes.to_vec(), answer.to_vec());
        let by_load = match answer.len() {
            8 => self.running.load_refused(bytes, BAD_LINE),
            _ => Ok(()),
        };
        let by_call = self.ours.call(bytes, call, answer);
        let by_copy = self.ours.copy_refp(bytes, 0, 0, entry);
        self.coverage.no_image(BAD_LINE);
        let found = by_load
            .and_then(|()| agree("status of the call", &[BAD_LINE], &[by_call]))
            .and_then(|()| agree("status of the copy", &[BAD_LINE], &[by_copy]))
            .and_then(|()| agree("image", &before.0, bytes))
            .and_then(|()| agree("answer", &before.1, answer));
        let lengths = format!(
            "image of {} bytes, call {}, answer of {} bytes, entry of {} bytes",
            bytes.len(),
            hex(call),
            answer.len(),
            entry.len()
        );
        found.map_err(|why| Difference(format!("{why}\n{lengths}")))
    }
}

/// The original in the state of an image. Calls on lists or record alone run on a state that is not whole too:
/// the Rust may have no such state, and it is not needed.
fn revived(before: &Image, request: &Request) -> Option<Original> {
    let mut machine = Machine::decode(before)?;
    if !whole(&machine) {
        machine = Machine { refp: machine.refp, record: machine.record, ..Machine::default() };
    }
    if !in_rust(request) {
        return None;
    }
    Original::from_machine(&machine)
}

fn in_rust(request: &Request) -> bool {
    match request {
        Request::Call(_) => true,
        Request::Copy(_, _, entry) => entry.in_rust(),
    }
}

fn encoded(machine: &Machine) -> Image {
    let mut image = [0; IMAGE_BYTES];
    machine.encode(&mut image);
    image
}

fn agree(what: &str, expected: &[u8], found: &[u8]) -> Result<(), String> {
    if expected == found {
        return Ok(());
    }
    Err(format!("{what}: ours {}, expected {}", hex(found), hex(expected)))
}

fn same_images(sides: &Sides, expected: &Image) -> Result<(), String> {
    if *sides.image != *expected {
        return Err(format!("ours differs from what is expected in\n{}", fields(&sides.image, expected)));
    }
    let papers = encoded(&sides.machine);
    if papers != *expected {
        return Err(format!("the specification (ours below) differs from the Rust in\n{}", fields(&papers, expected)));
    }
    Ok(())
}

/// The differing bytes, by field.
fn fields(ours: &Image, expected: &Image) -> String {
    let mut text = String::new();
    for at in (0..IMAGE_BYTES).filter(|at| ours[*at] != expected[*at]).take(40) {
        let _ = writeln!(text, "  {}: ours {:02x}, expected {:02x}", field_name(at), ours[at], expected[at]);
    }
    text
}

fn report(why: &str, request: &str, before: &Image) -> Difference {
    let state = Machine::decode(before).map_or_else(String::new, |machine| described(&machine));
    Difference(format!("{why}\n{request}\non\n{state}"))
}

/// A machine in words, empty places left out.
pub fn described(machine: &Machine) -> String {
    let mut text = String::new();
    for (i, slot) in machine.pic.iter().enumerate().filter(|(_, slot)| **slot != Default::default()) {
        let _ = writeln!(text, "  slot {i}: {slot:?}");
    }
    let _ = writeln!(text, "  lease: {:?}", machine.lease);
    for (lidx, list) in machine.refp.iter().enumerate() {
        for (i, entry) in list.iter().enumerate().filter(|(_, entry)| **entry != Default::default()) {
            let _ = writeln!(text, "  refp[{i}][{lidx}]: {entry:?}");
        }
    }
    let Machine { max_pb_size, max_num_ref_pics, cur_pb_size, cur_num_ref_pics, .. } = machine;
    let Machine { num_refp, poc_next_output, poc_increase, record, .. } = machine;
    let _ = writeln!(text, "  limits {max_pb_size} {max_num_ref_pics}, stored {cur_pb_size} {cur_num_ref_pics}");
    let _ = writeln!(text, "  counts {num_refp:?}, next {poc_next_output}, step {poc_increase}, {record:?}");
    text
}

pub fn hex(bytes: &[u8]) -> String {
    bytes.iter().map(|byte| format!("{byte:02x}")).collect()
}
