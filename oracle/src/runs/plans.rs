//! The group planner: every accepted plan with the original's `decide_normal_gop`, every refusal with the specification, and the
//! original's panic where it subtracts below zero.

use crate::api::SliceType;
use crate::def::EvcPoc;
use crate::enc::gop::EvceCtx;
use crate::image::Record;
use crate::judge::{hex, Difference, Verdict};
use crate::ours_plan::{record_bytes, Planner, PLAN_BYTES, RECORD_BYTES};
use crate::papers::plan::{plan, Plan, PlanCall, B, P};
use crate::papers::MAX_POC;
use crate::rng::Rng;
use crate::watch;
use std::fmt;
use std::panic::{self, AssertUnwindSafe};

const LENGTHS: [u64; 4] = [2, 4, 8, 16];
const SUBTRACTS: &str = "attempt to subtract with overflow";

/// What was met.
#[derive(Default)]
pub struct Plans {
    asked: u64,
    key: u64,
    multiple: u64,
    derived: u64,
    without: u64,
    negative: u64,
    by_length: [u64; 4],
    refused: [u64; 20],
    panics: u64,
    groups: u64,
}

impl Plans {
    fn accepted(&self) -> u64 {
        self.key + self.multiple + self.derived + self.without
    }

    /// What a run must have met to say enough.
    fn missing(&self) -> Option<&'static str> {
        let refusals = [6, 16, 17, 18, 19].iter().all(|&n| self.refused[n] > 0);
        let ways = [self.key, self.multiple, self.derived, self.without, self.negative, self.panics, self.groups];
        (!refusals || ways.contains(&0) || self.by_length.contains(&0)).then_some("a kind of plan or a refusal")
    }
}

impl fmt::Display for Plans {
    fn fmt(&self, f: &mut fmt::Formatter<'_>) -> fmt::Result {
        let [two, four, eight, sixteen] = self.by_length;
        writeln!(f, "plans: {} asked, {} accepted and equal to the Rust's", self.asked, self.accepted())?;
        writeln!(f, "  length 2: {two}, 4: {four}, 8: {eight}, 16: {sixteen}")?;
        let (key, multiple, derived, without) = (self.key, self.multiple, self.derived, self.without);
        writeln!(
            f,
            "  key pictures {key}, multiples {multiple}, in the hierarchy {derived}, without it {without}"
        )?;
        writeln!(f, "  negative numbers {}, whole groups planned in turn {}", self.negative, self.groups)?;
        write!(f, "  turned down, both buffers as they were:")?;
        for (number, count) in self.refused.iter().enumerate().filter(|(_, count)| **count > 0) {
            write!(f, " {number}: {count}")?;
        }
        write!(f, "\n  the Rust panics on the subtraction in {0} of {0}, and in no accepted plan", self.panics)
    }
}

pub fn run(ours: Planner, rng: &mut Rng, quick: bool) -> Verdict<Plans> {
    // The original's panics are looked for, so they are not printed.
    let hook = panic::take_hook();
    panic::set_hook(Box::new(|_| {}));
    let result = all(ours, rng, quick);
    panic::set_hook(hook);
    let plans = result?;
    match plans.missing() {
        Some(what) => Err(Difference(format!("plans: {what} was not met, so this run says too little"))),
        None => Ok(plans),
    }
}

fn all(ours: Planner, rng: &mut Rng, quick: bool) -> Verdict<Plans> {
    let mut judge = Judge { ours, met: Plans::default() };
    readings(&mut judge)?;
    grid(&mut judge, if quick { 20 } else { 70 })?;
    groups(&mut judge, rng, if quick { 200 } else { 5_000 })?;
    random(&mut judge, rng, if quick { 50_000 } else { 1_000_000 })?;
    sizes(&mut judge)?;
    Ok(judge.met)
}

/// The record after a plan, and what the specification says of it.
struct Decided {
    after: Record,
    said: Result<Plan, u8>,
}

struct Judge {
    ours: Planner,
    met: Plans,
}

impl Judge {
    /// One plan on all sides.
    fn plan(&mut self, call: &PlanCall, record: Record) -> Verdict<Decided> {
        watch::step();
        self.met.asked += 1;
        let (mut bytes, mut planned) = (record_bytes(&record), [0xaa; PLAN_BYTES]);
        let status = (self.ours)(call, u8::from(call.hierarchy), &mut bytes, &mut planned);
        let mut after = record;
        let said = plan(call, &mut after);
        let expected = match &said {
            Ok(said) => (0, record_bytes(&after), plan_bytes(said)),
            Err(refusal) => (*refusal, record_bytes(&record), [0xaa; PLAN_BYTES]),
        };
        let differs = |what: String| Difference(format!("{call:?} on {record:?}: {what}"));
        if (status, bytes, planned) != expected {
            let found = format!("ours gives {status}, record {}, plan {}", hex(&bytes), hex(&planned));
            return Err(differs(format!("{found}; the specification says {said:?}, record {after:?}")));
        }
        match said {
            Ok(said) => match original(call, record) {
                Ok(rust) if rust == (said, after) => self.accepted(call, &said),
                rust => {
                    return Err(differs(format!(
                        "the Rust gives {rust:?}, the specification {said:?}, record {after:?}"
                    )))
                }
            },
            Err(refusal) => self.refused(call, record, refusal).map_err(differs)?,
        }
        Ok(Decided { after, said })
    }

    fn accepted(&mut self, call: &PlanCall, said: &Plan) {
        let met = &mut self.met;
        met.by_length[call.length.ilog2() as usize - 1] += 1;
        met.negative += u64::from(said.number < 0);
        match (said.depth, call.hierarchy) {
            (0, _) => met.key += 1,
            (1, _) => met.multiple += 1,
            (_, true) => met.derived += 1,
            (_, false) => met.without += 1,
        }
    }

    /// The Rust's own failure is the subtraction below zero, on any record.
    fn refused(&mut self, call: &PlanCall, record: Record, refusal: u8) -> Result<(), String> {
        self.met.refused[usize::from(refusal)] += 1;
        let subtracts = refusal == 19 && [P, B].contains(&call.inter) && call.count <= u64::from(MAX_POC);
        if subtracts {
            match original(call, record) {
                Err(words) if words == SUBTRACTS => self.met.panics += 1,
                rust => return Err(format!("the Rust should subtract below zero and gives {rust:?}")),
            }
        }
        Ok(())
    }
}

/// The original, with the record after, or the words of its panic.
fn original(call: &PlanCall, record: Record) -> Result<(Plan, Record), String> {
    let poc = EvcPoc {
        poc_val: record.poc_val,
        prev_poc_val: record.prev_poc_val,
        prev_doc_offset: record.prev_doc_offset,
    };
    let (length, interval) = (call.length as usize, call.interval as usize);
    let mut context = EvceCtx::new(length, interval, SliceType::from(call.inter), call.hierarchy, poc);
    let ran = panic::catch_unwind(AssertUnwindSafe(|| context.plan(call.count as usize)));
    ran.map_err(|words| {
        words.downcast_ref::<&str>().map_or("another panic".to_string(), |words| words.to_string())
    })?;
    let planned = Plan {
        slice_type: context.slice_type as u8,
        depth: context.slice_depth,
        reference: context.slice_ref_flag,
        number: context.poc.poc_val,
    };
    let after = Record {
        poc_val: context.poc.poc_val,
        prev_poc_val: context.poc.prev_poc_val,
        prev_doc_offset: context.poc.prev_doc_offset,
    };
    Ok((planned, after))
}

pub fn plan_bytes(plan: &Plan) -> [u8; PLAN_BYTES] {
    let [a, b, c, d] = plan.number.to_be_bytes();
    [plan.slice_type, plan.depth, u8::from(plan.reference), a, b, c, d]
}

fn call_of(count: u64, length: u64, interval: u64, inter: u8, hierarchy: u8) -> PlanCall {
    PlanCall { count, length, interval, inter, hierarchy: hierarchy == 1 }
}

fn record_of(poc_val: i32, prev_poc_val: u32, prev_doc_offset: i32) -> Record {
    Record { poc_val, prev_poc_val, prev_doc_offset }
}

/// The cases by which docs/DECISIONS.md tells the readings apart.
fn readings(judge: &mut Judge) -> Verdict<()> {
    let planned = |slice_type, depth, reference, number| Ok(Plan { slice_type, depth, reference, number });
    let top = u32::MAX;
    let cases = [
        (call_of(0, 258, 0, P, 1), record_of(0, 0, 0), Err(17)),
        (call_of(0, (1 << 32) + 8, 0, 1, 1), record_of(0, 0, 0), Err(17)),
        (call_of(0, 8, 0, 1, 1), record_of(0, 0, 0), Err(19)),
        (call_of(8, 8, 0, P, 1), record_of(0, top, -5), planned(P, 1, true, 8)),
        (call_of(9, 8, 0, P, 1), record_of(0, top, -5), Err(16)),
        (call_of(9, 8, 0, B, 0), record_of(5, top, -7), planned(B, 2, false, 1)),
        (call_of(7, 8, 0, B, 0), record_of(0, 0, 0), Err(19)),
        (call_of(7, 8, 7, B, 0), record_of(0, 0, 0), planned(1, 0, true, 7)),
        (call_of(8, 8, 8, B, 1), record_of(0, 0, 0), planned(1, 0, true, 8)),
        (call_of(13, 8, 12, B, 1), record_of(12, 12, 0), planned(B, 4, false, 5)),
        (call_of(1, 8, 0, B, 1), record_of(0, 0, 0), planned(B, 2, true, -4)),
        (call_of(1, 2, 0, B, 1), record_of(0, 0, 0), planned(B, 2, false, -1)),
    ];
    for (call, record, said) in cases {
        let found = judge.plan(&call, record)?.said;
        if found != said {
            return Err(Difference(format!("reading {call:?} on {record:?}: found {found:?}, wanted {said:?}")));
        }
    }
    Ok(())
}

/// Records at the edges of what a derivation takes, and past them.
fn edges() -> [Record; 12] {
    let top = MAX_POC;
    [
        record_of(0, 0, 0),
        record_of(-7, 8, 1),
        record_of(i32::MIN, 16, 7),
        record_of(i32::MAX, 1 << 20, 15),
        record_of(5, top, 0),
        record_of(5, top, 14),
        record_of(5, top - 15, 15),
        record_of(5, top - 16, 32_767),
        record_of(5, top + 1, 0),
        record_of(5, u32::MAX, -1),
        record_of(-1, 64, 32_768),
        record_of(-1, 64, i32::MIN),
    ]
}

/// Every count up to `most` at every interval from 0 to 40.
fn grid(judge: &mut Judge, most: u64) -> Verdict<()> {
    for length in LENGTHS {
        for interval in 0..=40 {
            for count in 0..=most {
                for (inter, hierarchy) in [(P, 0), (P, 1), (B, 0), (B, 1)] {
                    for record in edges() {
                        judge.plan(&call_of(count, length, interval, inter, hierarchy), record)?;
                    }
                }
            }
        }
    }
    Ok(())
}

/// Groups planned in turn from a multiple on, each plan on the record that the last one left: the numbers are the count of the
/// multiple and every whole number strictly between that less the length and that, each once, unless a key picture comes between.
fn groups(judge: &mut Judge, rng: &mut Rng, many: u64) -> Verdict<()> {
    for _ in 0..many {
        let length = rng.pick(&LENGTHS);
        let highest = (u64::from(MAX_POC) + 1) / length - 1;
        let multiples = [0, 1, rng.below(40), rng.below(highest), highest];
        let multiple = length * rng.pick(&multiples);
        let intervals = [0, 0, rng.below(41), 1 << 40];
        let interval = rng.pick(&intervals);
        let inter = rng.pick(&[P, B]);
        let mut record = any_record(rng);
        let (mut numbers, mut key) = (Vec::new(), false);
        for count in multiple..multiple + length {
            let call = call_of(count, length, interval, inter, 1);
            key |= count > multiple && call.is_key();
            let decided = judge.plan(&call, record)?;
            record = decided.after;
            numbers.extend(decided.said.ok().map(|plan| i64::from(plan.number)));
        }
        numbers.sort_unstable();
        let (first, last) = (multiple as i64 - length as i64 + 1, multiple as i64);
        if !key && !numbers.iter().copied().eq(first..=last) {
            return Err(Difference(format!("group of {length} from {multiple}: the numbers are {numbers:?}")));
        }
        judge.met.groups += u64::from(!key);
    }
    Ok(())
}

fn any_record(rng: &mut Rng) -> Record {
    if rng.chance(128) {
        return rng.pick(&edges());
    }
    let previous = [rng.below(64) as u32, rng.word() >> 1, rng.word()];
    let offsets = [rng.below(16) as i32, rng.below(32_768) as i32, rng.word() as i32];
    record_of(rng.word() as i32, rng.pick(&previous), rng.pick(&offsets))
}

/// Any bits in any of them, most of them near what is accepted.
fn random(judge: &mut Judge, rng: &mut Rng, many: u64) -> Verdict<()> {
    let top = u64::from(MAX_POC);
    for _ in 0..many {
        let others = [0, 1, 3, 6, 12, 32, 258, (1 << 32) + 8, u64::MAX, rng.draw()];
        let length = if rng.chance(240) { rng.pick(&LENGTHS) } else { rng.pick(&others) };
        let near = [rng.below(100), rng.below(top), top - rng.below(40), top + 1 + rng.below(40), rng.draw()];
        let count = near[[0, 0, 1, 1, 1, 2, 2, 3, 4][rng.index(9)]];
        let multiple = count.max(1) - count.max(1) % length.max(1);
        let intervals = [0, rng.below(41), count, multiple, rng.below(1 << 32), u64::MAX, rng.draw()];
        let interval = rng.pick(&intervals);
        let inter = if rng.chance(248) { rng.pick(&[P, B]) } else { rng.byte() };
        let hierarchy = rng.byte() & 1;
        let record = any_record(rng);
        judge.plan(&call_of(count, length, interval, inter, hierarchy), record)?;
    }
    Ok(())
}

/// Buffers of other sizes, and a byte for the hierarchy that is no flag: 18, and nothing is written.
fn sizes(judge: &mut Judge) -> Verdict<()> {
    let call = call_of(9, 8, 0, B, 1);
    let mut refused = |hierarchy: u8, record_len: usize, plan_len: usize| {
        let (mut record, mut planned) = (vec![0; record_len], vec![0xaa; plan_len]);
        judge.met.asked += 1;
        judge.met.refused[18] += 1;
        let status = (judge.ours)(&call, hierarchy, &mut record, &mut planned);
        let kept = record.iter().all(|byte| *byte == 0) && planned.iter().all(|byte| *byte == 0xaa);
        let what =
            format!("hierarchy {hierarchy}, record of {record_len}, plan of {plan_len}: {status}, kept: {kept}");
        (status == 18 && kept).then_some(()).ok_or(Difference(what))
    };
    for len in [0, 1, 6, 8, 11, 13, 64] {
        refused(1, len, PLAN_BYTES)?;
        refused(1, RECORD_BYTES, if len == PLAN_BYTES { 0 } else { len })?;
    }
    for hierarchy in 2..=255 {
        refused(hierarchy, RECORD_BYTES, PLAN_BYTES)?;
    }
    Ok(())
}
