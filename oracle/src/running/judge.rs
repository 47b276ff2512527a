//! The running machine beside the image: what a call on one leaves must be what it leaves on the other.

use super::coverage::RunningCoverage;
use super::library::{answer_bits, OursRunning};
use super::{rules, Running, PLACES, ROWS, SLOTS};
use crate::call::{Answer, Call, Outcome, Reply, BAD_LINE};
use crate::image::{Entry, Image, Machine, ENTRY_BYTES, IMAGE_BYTES};
use crate::papers;

/// How many calls in place go by before the machine is saved.
const SETTLE_EVERY: u64 = 16;

/// One call on an image as it was judged: before it, the call, and what came of it.
pub struct Judged<'a> {
    pub before: &'a Image,
    pub machine_before: &'a Machine,
    pub bytes: &'a [u8],
    pub call: Option<&'a Call>,
    pub reply: Reply,
    pub after: &'a Image,
    pub machine_after: &'a Machine,
}

pub struct RunningJudge {
    pub ours: Box<dyn OursRunning>,
    pub coverage: RunningCoverage,
    image: Box<Image>,
}

impl RunningJudge {
    pub fn new(ours: Box<dyn OursRunning>) -> RunningJudge {
        RunningJudge { ours, coverage: RunningCoverage::default(), image: Box::new([0xa5; IMAGE_BYTES]) }
    }

    /// Load, call, save, by bytes and by numbers. A state that is not whole is not loaded.
    pub fn judged(&mut self, judged: &Judged) -> Result<(), String> {
        if !papers::whole::whole(judged.machine_before) {
            self.coverage.not_loaded += 1;
            self.load_refused(judged.before, 7)?;
            return self.broken(judged);
        }
        self.coverage.loaded += 1;
        let mut by_bytes = Box::new(Running::filled());
        self.load(&mut by_bytes, judged)?;
        let mut by_numbers = by_bytes.clone();
        self.by_bytes(&mut by_bytes, judged)?;
        self.same(&mut by_bytes, judged)?;
        if let Some(call) = judged.call {
            self.by_numbers(&mut by_numbers, call, judged)?;
            // The same bits stand for the same.
            if by_numbers != by_bytes {
                self.same(&mut by_numbers, judged)?;
            }
        }
        Ok(())
    }

    fn load(&mut self, running: &mut Running, judged: &Judged) -> Result<(), String> {
        match self.ours.load(running.lent(), judged.before) {
            0 if running.stands() == *judged.machine_before && rules::whole(running) => Ok(()),
            0 => Err("running machine: what is loaded does not stand for the image".to_string()),
            status => Err(format!("running machine: load of a whole image gives {status}")),
        }
    }

    /// Bytes that are not loaded: nothing is written.
    pub fn load_refused(&mut self, image: &[u8], refusal: u8) -> Result<(), String> {
        let mut running = Box::new(Running::filled());
        let status = self.ours.load(running.lent(), image);
        if status != refusal {
            return Err(format!("running machine: load gives {status}, expected {refusal}"));
        }
        unchanged("load", &Running::filled(), &running)
    }

    /// A state that is not whole, where keys can say it: the calls are turned down as on the image, and nothing is written.
    fn broken(&mut self, judged: &Judged) -> Result<(), String> {
        let mut running = Box::new(Running::filled());
        if !running.write(judged.machine_before) {
            return Ok(());
        }
        self.coverage.broken += 1;
        let before = running.clone();
        self.by_bytes(&mut running, judged)?;
        self.left(&before, &running, judged)?;
        if let Some(call) = judged.call {
            running = before.clone();
            self.by_numbers(&mut running, call, judged)?;
            self.left(&before, &running, judged)?;
        }
        self.save_refused(&mut running)
    }

    /// A derivation has to do with the record alone.
    fn left(&self, before: &Running, after: &Running, judged: &Judged) -> Result<(), String> {
        let mut expected = before.clone();
        if judged.reply.status == 0 {
            expected.write_record(&judged.machine_after.record);
        }
        unchanged("a call on a state that is not whole", &expected, after)
    }

    fn save_refused(&mut self, running: &mut Running) -> Result<(), String> {
        self.image.fill(0xa5);
        let before = running.clone();
        let status = self.ours.save(running.lent(), &mut self.image[..]);
        if status != 7 || self.image.iter().any(|byte| *byte != 0xa5) {
            return Err(format!("running machine: save of a state that is not whole gives {status} or writes"));
        }
        unchanged("save", &before, running)
    }

    fn by_bytes(&mut self, running: &mut Running, judged: &Judged) -> Result<(), String> {
        let mut answer = [0xaa; 8];
        let status = self.ours.by_bytes(running.lent(), judged.bytes, &mut answer);
        if status != judged.reply.status || answer != judged.reply.bytes() {
            return Err(format!("running machine: by bytes {status}, {answer:02x?}, expected {:?}", judged.reply));
        }
        Ok(())
    }

    fn by_numbers(&mut self, running: &mut Running, call: &Call, judged: &Judged) -> Result<(), String> {
        let (found, expected) = (self.ours.by_numbers(running.lent(), call), answer_bits(&judged.reply));
        if found != expected {
            return Err(format!("running machine: by numbers {found:016x}, expected {expected:016x}"));
        }
        Ok(())
    }

    /// The arrays stand for the machine, and what is saved is its image.
    fn same(&mut self, running: &mut Running, judged: &Judged) -> Result<(), String> {
        if running.stands() != *judged.machine_after || !rules::whole(running) {
            return Err("running machine: the arrays do not stand for what the call leaves".to_string());
        }
        self.saved(running, judged.after)
    }

    fn saved(&mut self, running: &mut Running, expected: &Image) -> Result<(), String> {
        self.image.fill(0xa5);
        let status = self.ours.save(running.lent(), &mut self.image[..]);
        if status != 0 || *self.image != *expected {
            return Err(format!("running machine: save gives {status}, or another image than the call leaves"));
        }
        Ok(())
    }

    /// The same call on a machine that stays where it is from call to call, by turns by numbers and by bytes.
    pub fn in_place(&mut self, live: &mut Running, judged: &Judged) -> Result<(), String> {
        self.coverage.in_place += 1;
        let refused = (1..=BAD_LINE).contains(&judged.reply.status);
        let before = refused.then(|| live.clone());
        match judged.call {
            Some(call) if self.coverage.in_place.is_multiple_of(2) => self.by_numbers(live, call, judged)?,
            _ => self.by_bytes(live, judged)?,
        }
        if let Some(before) = before {
            unchanged("a call turned down", &before, live)?;
        }
        if self.coverage.in_place.is_multiple_of(SETTLE_EVERY) {
            self.settle(live, judged.after)?;
        }
        Ok(())
    }

    /// A machine that calls went on in place, saved.
    pub fn settle(&mut self, live: &mut Running, image: &Image) -> Result<(), String> {
        self.coverage.settled += 1;
        self.saved(live, image)
    }

    /// A copy, on rows that hold the lists of `before` or that calls went on in place.
    pub fn copied(
        &mut self,
        live: Option<&mut Running>,
        to: (u64, u64),
        bytes: &[u8; ENTRY_BYTES],
        machines: (&Machine, &Machine),
        expected: u8,
    ) -> Result<(), String> {
        self.coverage.copies += 1;
        let mut fresh = Box::new(Running::filled());
        fresh.write_lists(machines.0);
        let mut wanted = fresh.clone();
        wanted.write_lists(machines.1);
        self.copy(&mut fresh, to, bytes, expected)?;
        unchanged("a copy", &wanted, &fresh)?;
        if let Some(live) = live {
            let mut wanted = live.clone();
            wanted.write_lists(machines.1);
            self.copy(live, to, bytes, expected)?;
            unchanged("a copy in place", &wanted, live)?;
        }
        Ok(())
    }

    fn copy(&self, running: &mut Running, to: (u64, u64), bytes: &[u8; 90], expected: u8) -> Result<(), String> {
        let mut flag_fits = *bytes;
        flag_fits[0] = 0;
        let Entry { buf, poc, list_poc, .. } = Entry::decode(&flag_fits).expect("a flag of 0 fits");
        match self.ours.copy(&mut running.rows, to, bytes[0], (buf, poc), &list_poc) {
            status if status == expected => Ok(()),
            status => Err(format!("running machine: copy gives {status}, expected {expected}")),
        }
    }

    /// One call on arrays of any bits, both ways, and save.
    pub fn any_bits(&mut self, arrays: &Running, call: &Call) -> Result<(), String> {
        let whole = rules::whole(arrays);
        let mut machine = arrays.stands();
        let outcome = match call {
            Call::Put(put) if put.flags > 15 => Err(BAD_LINE),
            Call::Derive { .. } => papers::call(&mut machine, call),
            _ if !whole => Err(7),
            _ => papers::call(&mut machine, call),
        };
        let reply = match outcome {
            Err(BAD_LINE) => Reply::BAD,
            _ => Reply::new(call.code(), outcome),
        };
        self.coverage.call(call, reply.status);
        *(if whole { &mut self.coverage.any_whole } else { &mut self.coverage.any_broken }) += 1;

        let mut running = Box::new(arrays.clone());
        let found = self.ours.by_numbers(running.lent(), call);
        let expected = answer_bits(&reply);
        if found != expected {
            return Err(format!("running machine: by numbers {found:016x}, expected {expected:016x}"));
        }
        self.any_left(arrays, &mut running, &machine, &outcome, reply)?;

        let (mut running, mut answer) = (Box::new(arrays.clone()), [0xaa; 8]);
        let status = self.ours.by_bytes(running.lent(), &call.bytes(), &mut answer);
        if status != reply.status || answer != reply.bytes() {
            return Err(format!("running machine: by bytes {status}, {answer:02x?}, expected {reply:?}"));
        }
        self.any_left(arrays, &mut running, &machine, &outcome, reply)
    }

    fn any_left(
        &mut self,
        before: &Running,
        after: &mut Running,
        machine: &Machine,
        outcome: &Outcome,
        reply: Reply,
    ) -> Result<(), String> {
        match outcome {
            Ok(Answer::Number(_)) => {
                let mut expected = before.clone();
                expected.write_record(&machine.record);
                as_read("a derivation", &expected, after)?;
            }
            Ok(_) if after.stands() != *machine => {
                return Err("running machine: the arrays do not stand for what the call leaves".to_string());
            }
            Ok(_) => other_rows_stay(reply, before, after)?,
            Err(_) => unchanged("a call turned down", before, after)?,
        }
        if !rules::whole(before) {
            return self.save_refused(after);
        }
        let mut image = [0; IMAGE_BYTES];
        machine.encode(&mut image);
        self.saved(after, &image)
    }
}

/// Every row of a buffer but that of the picture shown, and but under a list call the rows of the lists.
fn other_rows_stay(reply: Reply, before: &Running, after: &Running) -> Result<(), String> {
    let kept = if reply.code == 5 { SLOTS } else { ROWS / PLACES };
    for row in (0..kept).filter(|row| *row != usize::from(reply.buf)) {
        let numbers = PLACES * row..PLACES * (row + 1);
        if before.rows[numbers.clone()] != after.rows[numbers] {
            return Err(format!("running machine: call {} leaves other numbers in row {row}", reply.code));
        }
    }
    Ok(())
}

/// Every bit of the three arrays, but that counts may have been written as they are read.
fn as_read(what: &str, before: &Running, after: &Running) -> Result<(), String> {
    if before.clipped() == *after {
        return Ok(());
    }
    unchanged(what, before, after)
}

/// Every bit of the three arrays.
pub fn unchanged(what: &str, before: &Running, after: &Running) -> Result<(), String> {
    if before == after {
        return Ok(());
    }
    let keys = (0..before.keys.len()).filter(|i| before.keys[*i] != after.keys[*i]);
    let rows = (0..before.rows.len()).filter(|i| before.rows[*i] != after.rows[*i]);
    let registers = (0..before.registers.len()).filter(|i| before.registers[*i] != after.registers[*i]);
    let (keys, rows, registers): (Vec<_>, Vec<_>, Vec<_>) = (keys.collect(), rows.collect(), registers.collect());
    Err(format!(
        "running machine: {what} leaves other bits in keys {keys:?}, rows {rows:?}, registers {registers:?}"
    ))
}
