//! The question why: on every state each slot's answer, by the image and by the running machine, with the specification in plain
//! Rust; 'taken' with the list that our list call builds; and the answers of every limit with those of the unlimited list.

use crate::call::{Call, Lists};
use crate::generate::broken::broken;
use crate::generate::calls::Caller;
use crate::generate::running::broken_arrays;
use crate::generate::states::whole_state;
use crate::image::{Image, Machine, IMAGE_BYTES, PLACES, SLOTS};
use crate::judge::{hex, Difference, Verdict};
use crate::ours::Ours;
use crate::ours_why::{OursWhy, REASON_BYTES};
use crate::papers::lists::{lists, SLICE_I};
use crate::papers::why::{turns, why, Reason};
use crate::papers::MAX_POC;
use crate::rng::Rng;
use crate::running::rules::RULES;
use crate::running::Running;
use crate::watch;
use std::fmt;

/// No list of whole states has so many entries.
const UNLIMITED: u8 = 255;
const UNTOUCHED: [u8; REASON_BYTES] = [0xaa; REASON_BYTES];
const WORDS: [&str; 8] =
    ["taken", "not marked", "full", "old", "same number", "other side", "layer over the bound", "no list asked"];

/// What was met.
#[derive(Default)]
pub struct Whys {
    states: u64,
    asked: u64,
    told: [u64; WORDS.len()],
    refused: [u64; 20],
    listed: u64,
    entries: u64,
    limits: u64,
    cut: u64,
}

impl Whys {
    /// What a run must have met to say enough.
    fn missing(&self) -> Option<&'static str> {
        let refusals = [6, 7, 8, 9, 11, 14, 18].iter().all(|&n| self.refused[n] > 0);
        let counts = [self.listed, self.entries, self.limits, self.cut];
        (!refusals || self.told.contains(&0) || counts.contains(&0)).then_some("a reason or a refusal")
    }
}

impl fmt::Display for Whys {
    fn fmt(&self, f: &mut fmt::Formatter<'_>) -> fmt::Result {
        writeln!(
            f,
            "why: {} states, {} questions, each by the image and by the running machine",
            self.states, self.asked
        )?;
        for (word, count) in WORDS.iter().zip(self.told) {
            writeln!(f, "  {count:>10}  {word}")?;
        }
        write!(f, "  turned down, nothing written:")?;
        for (number, count) in self.refused.iter().enumerate().filter(|(_, count)| **count > 0) {
            write!(f, " {number}: {count}")?;
        }
        writeln!(f)?;
        writeln!(
            f,
            "  'taken' names the {} entries of {} built forward lists, each once",
            self.entries, self.listed
        )?;
        write!(
            f,
            "  under {} limits the list is the unlimited one cut there; {} answers became 'full', the others stayed",
            self.limits, self.cut
        )
    }
}

/// Our functions.
pub struct Sides {
    pub calls: Box<dyn Ours>,
    pub whys: Box<dyn OursWhy>,
}

pub fn run(ours: Sides, rng: &mut Rng, quick: bool) -> Verdict<Whys> {
    let mut judge = Judge { ours, met: Whys::default() };
    let (states, broken) = if quick { (3_000, 200) } else { (100_000, 2_000) };
    for _ in 0..states {
        judge.whole(rng)?;
    }
    for _ in 0..broken {
        judge.broken(rng)?;
    }
    judge.sizes(rng)?;
    match judge.met.missing() {
        Some(what) => Err(Difference(format!("why: {what} was not met, so this run says too little"))),
        None => Ok(judge.met),
    }
}

struct Judge {
    ours: Sides,
    met: Whys,
}

impl Judge {
    /// A few requests of one state: the answers of all slots, the list that is built, and every limit.
    fn whole(&mut self, rng: &mut Rng) -> Verdict<()> {
        self.met.states += 1;
        let machine = whole_state(rng);
        let mut caller = Caller::new(rng);
        for _ in 0..3 {
            let request = request(rng, &mut caller, &machine);
            let answers = self.each_slot(&machine, &request)?;
            if request.slice_type == SLICE_I {
                continue;
            }
            if lists(&mut machine.clone(), &request).is_ok() {
                self.list(&machine, &request, &answers)?;
            }
            self.limits(&machine, &request)?;
        }
        Ok(())
    }

    /// Every slot and the one behind the last: what the specification says of it, by the image and by the running machine.
    fn each_slot(&mut self, machine: &Machine, request: &Lists) -> Verdict<Vec<Result<Reason, u8>>> {
        let image = image_of(machine);
        let mut running = Running::new();
        let held = running.write(machine);
        (0..=SLOTS as u8).map(|slot| self.one(machine, &image, held.then_some(&running), request, slot)).collect()
    }

    fn one(
        &mut self,
        machine: &Machine,
        image: &Image,
        running: Option<&Running>,
        request: &Lists,
        slot: u8,
    ) -> Verdict<Result<Reason, u8>> {
        watch::step();
        self.met.asked += 1;
        let bytes = Call::Lists(*request).bytes();
        let said = why(machine, request, slot);
        let expected = match said {
            Ok(reason) => (0, reason.bytes()),
            Err(refusal) => (refusal, UNTOUCHED),
        };
        let mut reason = UNTOUCHED;
        let found = (self.ours.whys.of_image(image, &bytes, slot, &mut reason), reason);
        let differs = |by: &str, (status, reason): (u8, [u8; REASON_BYTES])| {
            let pictures: Vec<_> =
                machine.pic.iter().map(|p| (p.present, p.is_ref, p.poc, p.temporal_id)).collect();
            Difference(format!(
                "{request:?} of slot {slot} by {by}: ours gives {status}, {}; the specification says {said:?}\n{pictures:?}",
                hex(&reason)
            ))
        };
        if found != expected {
            return Err(differs("the image", found));
        }
        if let Some(Running { keys, rows, registers }) = running {
            let mut reason = UNTOUCHED;
            let found = (self.ours.whys.of_arrays(keys, rows, registers, &bytes, slot, &mut reason), reason);
            if found != expected {
                return Err(differs("the running machine", found));
            }
        }
        match said {
            Ok(reason) => self.met.told[usize::from(reason.bytes()[0])] += 1,
            Err(refusal) => self.met.refused[usize::from(refusal)] += 1,
        }
        Ok(said)
    }

    /// The buffers of the forward list that our list call builds.
    fn forward(&self, machine: &Machine, request: &Lists) -> Vec<u8> {
        let mut image = image_of(machine);
        let status = self.ours.calls.call(&mut image, &Call::Lists(*request).bytes(), &mut [0; 8]);
        let after = Machine::decode(&image).expect("an image stays one");
        let count = if status == 0 { usize::from(after.num_refp[0]) } else { 0 };
        after.refp[0][..count].iter().map(|entry| entry.buf).collect()
    }

    /// 'Taken at n' is told of the picture of entry n, and of no other.
    fn list(&mut self, machine: &Machine, request: &Lists, answers: &[Result<Reason, u8>]) -> Verdict<()> {
        let built = self.forward(machine, request);
        let mut told = vec![None; built.len()];
        for (slot, answer) in machine.pic.iter().zip(answers) {
            if let Ok(Reason::Taken(place)) = answer {
                match told.get_mut(usize::from(*place)) {
                    Some(free @ None) => *free = Some(slot.buf),
                    _ => return Err(Difference(format!("{request:?}: place {place} is told twice or is none"))),
                }
            }
        }
        if told.iter().copied().collect::<Option<Vec<u8>>>() != Some(built.clone()) {
            return Err(Difference(format!("{request:?}: told {told:?}, built {built:?}")));
        }
        self.met.listed += 1;
        self.met.entries += built.len() as u64;
        Ok(())
    }

    /// With limit m the list is the unlimited one cut at m. So a marked picture has 'full' exactly if m of the unlimited
    /// list have an earlier turn, and else its reason is the unlimited one's.
    fn limits(&mut self, machine: &Machine, request: &Lists) -> Verdict<()> {
        let unlimited = Lists { limit: UNLIMITED, ..*request };
        let whole_list = self.forward(machine, &unlimited);
        if whole_list.is_empty() {
            return Ok(());
        }
        let reasons = self.each_slot(machine, &unlimited)?;
        let turns: Vec<u8> = turns(machine, request).iter().map(|picture| picture.buf).collect();
        for m in 1..=(whole_list.len() + 1).min(PLACES) {
            let limited = Lists { limit: m as u8, ..*request };
            let cut = &whole_list[..m.min(whole_list.len())];
            let built = self.forward(machine, &limited);
            if built != cut {
                return Err(Difference(format!(
                    "{limited:?}: the list is {built:?}, the unlimited {whole_list:?}"
                )));
            }
            self.met.limits += 1;
            let answers = self.each_slot(machine, &limited)?;
            for (slot, picture) in machine.pic.iter().enumerate().filter(|(_, picture)| picture.marked()) {
                let earlier = turns.iter().take_while(|buf| **buf != picture.buf);
                let full = earlier.filter(|buf| whole_list.contains(buf)).count() >= m;
                let expected = if full { Ok(Reason::Full) } else { reasons[slot] };
                if answers[slot] != expected {
                    let found = answers[slot];
                    return Err(Difference(format!(
                        "{limited:?}, slot {slot}: {found:?}, by the unlimited list {expected:?}"
                    )));
                }
                self.met.cut += u64::from(full);
            }
        }
        Ok(())
    }

    /// A state that breaks one rule gives 7, as an image and as arrays.
    fn broken(&mut self, rng: &mut Rng) -> Verdict<()> {
        let machine = whole_state(rng);
        let mut caller = Caller::new(rng);
        let mut arrays = Running::new();
        assert!(arrays.write(&machine), "keys say every whole state");
        for rule in 0..RULES.len() {
            let request = request(rng, &mut caller, &machine);
            let slot = rng.below(SLOTS as u64 + 1) as u8;
            if let Some(machine) = broken(rng, &machine, rule) {
                let said = self.one(&machine, &image_of(&machine), None, &request, slot)?;
                if said != Err(7) {
                    return Err(Difference(format!("a state that breaks rule {rule} is asked: {said:?}")));
                }
            }
            if let Some(Running { keys, rows, registers }) = broken_arrays(rng, &arrays, rule) {
                let bytes = Call::Lists(request).bytes();
                let mut reason = UNTOUCHED;
                let status = self.ours.whys.of_arrays(&keys, &rows, &registers, &bytes, slot, &mut reason);
                self.refused(status, reason, 7, "arrays that break a rule")?;
            }
        }
        Ok(())
    }

    fn refused(&mut self, status: u8, reason: [u8; REASON_BYTES], expected: u8, what: &str) -> Verdict<()> {
        self.met.asked += 1;
        self.met.refused[usize::from(expected)] += 1;
        if (status, reason) == (expected, UNTOUCHED) {
            return Ok(());
        }
        Err(Difference(format!("{what}: ours gives {status}, {}; it should be {expected}", hex(&reason))))
    }

    /// Sizes, flags and calls that do not fit: 18, and no byte is written.
    fn sizes(&mut self, rng: &mut Rng) -> Verdict<()> {
        let machine = whole_state(rng);
        let image = image_of(&machine);
        let mut running = Running::new();
        assert!(running.write(&machine), "keys say every whole state");
        let Running { keys, rows, registers } = running;
        let lists = Call::Lists(Lists { slice_type: 2, poc: 8, layer: 0, last_intra: -1, limit: 2 }).bytes();
        let mut flagged = image;
        flagged[0] = 2;
        let mut unframed = lists.to_vec();
        unframed[12] ^= 1;
        let others =
            [Call::Get.bytes().to_vec(), Call::Out.bytes().to_vec(), vec![], lists[..12].to_vec(), unframed];
        for call in &others {
            let mut reason = UNTOUCHED;
            let status = self.ours.whys.of_image(&image, call, 0, &mut reason);
            self.refused(status, reason, 18, "another call")?;
            let mut reason = UNTOUCHED;
            let status = self.ours.whys.of_arrays(&keys, &rows, &registers, call, 0, &mut reason);
            self.refused(status, reason, 18, "another call on arrays")?;
        }
        for image in [&image[..IMAGE_BYTES - 1], &flagged[..], &[]] {
            let mut reason = UNTOUCHED;
            let status = self.ours.whys.of_image(image, &lists, 0, &mut reason);
            self.refused(status, reason, 18, "no image")?;
        }
        for (keys, rows, registers) in [
            (&keys[1..], &rows[..], &registers[..]),
            (&keys[..], &rows[1..], &registers[..]),
            (&keys[..], &rows[..], &registers[1..]),
        ] {
            let mut reason = UNTOUCHED;
            let status = self.ours.whys.of_arrays(keys, rows, registers, &lists, 0, &mut reason);
            self.refused(status, reason, 18, "arrays of another size")?;
        }
        for size in [0, 1, 3] {
            let mut reason = [0xaa; 3];
            let by_image = self.ours.whys.of_image(&image, &lists, 0, &mut reason[..size]);
            let by_arrays = self.ours.whys.of_arrays(&keys, &rows, &registers, &lists, 0, &mut reason[..size]);
            if (by_image, by_arrays, reason) != (18, 18, [0xaa; 3]) {
                return Err(Difference(format!(
                    "a reason of {size} bytes: {by_image}, {by_arrays}, {}",
                    hex(&reason)
                )));
            }
            self.met.asked += 2;
            self.met.refused[18] += 2;
        }
        Ok(())
    }
}

/// Now and then a number that is too high, and any slice type, layer and limit.
fn request(rng: &mut Rng, caller: &mut Caller, machine: &Machine) -> Lists {
    let Call::Lists(mut request) = caller.lists(rng, machine) else {
        unreachable!("a list request was asked for");
    };
    if rng.below(40) == 0 {
        request.poc = rng.pick(&[MAX_POC + 1, u32::MAX]);
    }
    if rng.chance(128) {
        request.slice_type = rng.pick(&[0, 1, 2, 2, 3, 3, 3, 255]);
    }
    request
}

fn image_of(machine: &Machine) -> Image {
    let mut image = [0; IMAGE_BYTES];
    machine.encode(&mut image);
    image
}
