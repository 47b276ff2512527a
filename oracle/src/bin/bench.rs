//! The benchmark's inputs, and calls of the library beside the original's functions in one process.
//!
//!     bench names                     the mixes, one a line
//!     bench lines NAME COUNT SEED     the call lines of a mix
//!     bench calls COUNT SEED RUNS     the same calls without lines: a table on standard output

use oracle::generate::mixes::{lines_of, MIXED, MIXES};
use std::io::{self, Write};
use std::process::ExitCode;

fn main() -> ExitCode {
    let words: Vec<String> = std::env::args().skip(1).collect();
    let words: Vec<&str> = words.iter().map(String::as_str).collect();
    let number = |word: &str| word.parse::<u64>().map_err(|why| why.to_string());
    let done = match words[..] {
        ["names"] => names(),
        ["lines", name, count, seed] => number(count).and_then(|count| write_lines(name, count, number(seed)?)),
        ["calls", count, seed, runs] => {
            number(count).and_then(|count| calls::table(count, number(seed)?, number(runs)?))
        }
        _ => Err("bench names | bench lines NAME COUNT SEED | bench calls COUNT SEED RUNS".to_string()),
    };
    match done {
        Ok(()) => ExitCode::SUCCESS,
        Err(why) => {
            eprintln!("{why}");
            ExitCode::from(2)
        }
    }
}

fn names() -> Result<(), String> {
    println!("{MIXED}");
    MIXES.iter().for_each(|mix| println!("{}", mix.name));
    Ok(())
}

fn write_lines(name: &str, count: u64, seed: u64) -> Result<(), String> {
    let lines = lines_of(name, count, seed).ok_or(format!("{name}: no such mix"))?;
    io::stdout().lock().write_all(&lines).map_err(|why| why.to_string())
}

#[cfg(not(linked))]
mod calls {
    pub fn table(_: u64, _: u64, _: u64) -> Result<(), String> {
        Err("libpicman_ffi.a was not there when this was built".to_string())
    }
}

#[cfg(linked)]
mod calls {
    use oracle::call::{Answer, Call, Outcome, Put, Reply};
    use oracle::generate::mixes::{mixed_calls, MIXED, MIXES};
    use oracle::image::{Image, IMAGE_BYTES};
    use oracle::original::Original;
    use oracle::ours;
    use oracle::running::library::{self, answer_bits, functions::by_numbers, Lent};
    use oracle::running::{Running, CUR_PB_SIZE};
    use std::hint::black_box;
    use std::time::Instant;

    /// What a call is and comes to; the rows of a mix of several kinds.
    const KINDS: [&str; 15] = [
        "init",
        "get, an idle picture",
        "get, a new picture",
        "put without reference",
        "put of a reference at layer 0",
        "put of a reference at layer 0, gap",
        "put of a reference above layer 0",
        "put of no picture",
        "out, due",
        "out, not yet",
        "out, none",
        "lists P",
        "lists B and unknown",
        "derive",
        "turned down",
    ];

    const DERIVE: usize = 13;

    /// A stamp that saw more than this saw another program run in between.
    const LONGEST: u64 = 20_000;

    fn kind(call: &Call, outcome: &Outcome, fewer: bool) -> usize {
        match (call, outcome) {
            (_, Err(_)) => 14,
            (Call::Init { .. }, _) => 0,
            (Call::Get, _) => 1 + usize::from(!fewer),
            (Call::Put(put), _) if put.has(Put::NO_PICTURE) => 7,
            (Call::Put(put), _) if !put.has(Put::REFERENCE) => 3,
            (Call::Put(put), _) if put.temporal_id > 0 => 6,
            (Call::Put(put), _) => 4 + usize::from(put.gap > 0),
            (Call::Out, Ok(Answer::NotYet)) => 9,
            (Call::Out, Ok(Answer::NoMore)) => 10,
            (Call::Out, _) => 8,
            (Call::Lists(lists), _) => 11 + usize::from(lists.slice_type != 2),
            (Call::Derive { .. }, _) => DERIVE,
        }
    }

    /// The calls of a mix; those that the original would not answer alone are only among the mixed.
    struct Work {
        name: &'static str,
        setup: Vec<Call>,
        calls: Vec<Call>,
        kinds: Vec<usize>,
        guarded: bool,
        /// The machine after all calls.
        last: Running,
    }

    /// Nanoseconds a call: the best of the runs.
    #[derive(Clone, Copy)]
    struct Best {
        ours: f64,
        rust: f64,
    }

    impl Best {
        const NONE: Best = Best { ours: f64::INFINITY, rust: f64::INFINITY };

        fn and(&mut self, ours: f64, rust: f64) {
            self.ours = self.ours.min(ours);
            self.rust = self.rust.min(rust);
        }
    }

    pub fn table(count: u64, seed: u64, runs: u64) -> Result<(), String> {
        let mut works = vec![Work::new(MIXED, Vec::new(), mixed_calls(count, seed), true)?];
        for mix in &MIXES {
            works.push(Work::new(mix.name, mix.setup(), mix.calls(count, seed), false)?);
        }
        println!("| Calls | Number | The Rust | Ours | Ours / Rust | The state's test | Its share |");
        println!("|---|---:|---:|---:|---:|---:|---:|");
        for work in &works {
            work.rows(runs);
        }
        println!();
        beside(&works[0], runs);
        Ok(())
    }

    impl Work {
        /// Warms up, and compares every answer and the machine at the end.
        fn new(name: &'static str, setup: Vec<Call>, calls: Vec<Call>, guarded: bool) -> Result<Work, String> {
            let (mut running, mut original, mut kinds) = (Running::new(), Original::default(), Vec::new());
            for (i, call) in setup.iter().chain(&calls).enumerate() {
                let before = running.registers[CUR_PB_SIZE];
                let outcome = if guarded { original.guarded(call) } else { original.call(call) };
                let expected = answer_bits(&Reply::new(call.code(), outcome));
                let found = by_numbers(running.lent(), call);
                if found != expected {
                    return Err(format!(
                        "{name}, call {i}, {call:?}: ours {found:016x}, the Rust {expected:016x}"
                    ));
                }
                if i >= setup.len() {
                    kinds.push(kind(call, &outcome, running.registers[CUR_PB_SIZE] < before));
                }
            }
            if running.stands() != original.to_machine() {
                return Err(format!("{name}: other machines at the end"));
            }
            Ok(Work { name, setup, calls, kinds, guarded, last: running })
        }

        fn ready(&self) -> (Box<Running>, Original) {
            let (mut running, mut original) = (Box::new(Running::new()), Original::default());
            for call in &self.setup {
                black_box(by_numbers(running.lent(), call));
                let _ = black_box(original.call(call));
            }
            (running, original)
        }

        fn rows(&self, runs: u64) {
            let test = self.test(runs);
            let mut all = Best::NONE;
            for _ in 0..runs {
                let (mut running, mut original) = self.ready();
                let ours = timed(|| self.by_ours(&mut running)) / self.calls.len() as f64;
                let rust = timed(|| self.by_rust(&mut original)) / self.calls.len() as f64;
                all.and(ours, rust);
            }
            // A derivation has to do with the record alone: nothing is tested.
            let tested = |kind: usize| (kind != DERIVE).then_some(test);
            let kinds: Vec<usize> =
                (0..KINDS.len()).filter(|kind| 100 * self.count(*kind) > self.calls.len()).collect();
            row(self.name, self.calls.len(), all, tested(kinds[0]));
            if kinds.len() > 1 {
                let split = self.split(runs);
                for kind in kinds {
                    row(&format!("– {}", KINDS[kind]), self.count(kind), split[kind], tested(kind));
                }
            }
        }

        fn count(&self, kind: usize) -> usize {
            self.kinds.iter().filter(|other| **other == kind).count()
        }

        fn by_ours(&self, running: &mut Running) {
            for call in &self.calls {
                black_box(by_numbers(running.lent(), call));
            }
        }

        fn by_rust(&self, original: &mut Original) {
            if self.guarded {
                for call in &self.calls {
                    let _ = black_box(original.guarded(call));
                }
            } else {
                for call in &self.calls {
                    let _ = black_box(original.call(call));
                }
            }
        }

        /// Each kind of call of the mix apart, by the time stamp counter around each call, less what the stamps take.
        fn split(&self, runs: u64) -> [Best; KINDS.len()] {
            let mut best = [Best::NONE; KINDS.len()];
            for _ in 0..runs {
                let (mut running, mut original) = self.ready();
                let ours = self.stamped(|call| {
                    black_box(by_numbers(running.lent(), call));
                });
                let rust = self.stamped(|call| {
                    let _ = black_box(if self.guarded { original.guarded(call) } else { original.call(call) });
                });
                for (kind, best) in best.iter_mut().enumerate() {
                    best.and(ours[kind], rust[kind]);
                }
            }
            best
        }

        fn stamped(&self, mut each: impl FnMut(&Call)) -> [f64; KINDS.len()] {
            let (mut ticks, mut counts) = ([0; KINDS.len()], [0; KINDS.len()]);
            let empty = (0..1000).map(|_| stamps(|| ())).min().unwrap();
            let (start, first) = (Instant::now(), stamp());
            for (call, kind) in self.calls.iter().zip(&self.kinds) {
                let took = stamps(|| each(call)).saturating_sub(empty);
                if took < LONGEST {
                    ticks[*kind] += took;
                    counts[*kind] += 1u64;
                }
            }
            let a_tick = start.elapsed().as_nanos() as f64 / (stamp() - first) as f64;
            std::array::from_fn(|kind| ticks[kind] as f64 * a_tick / counts[kind].max(1) as f64)
        }

        /// The test of the state in front of a call: a get that is turned down because a picture is leased (3) runs
        /// the whole test, on the mix's last state, and then compares one number. From it goes what a call takes that is
        /// turned down before the test, because a length does not fit.
        fn test(&self, runs: u64) -> f64 {
            const CALLS: usize = 20_000;
            let mut leased = Box::new(self.last.clone());
            by_numbers(leased.lent(), &Call::Get);
            if by_numbers(leased.lent(), &Call::Get) != 0xff03 {
                return f64::NAN;
            }
            let (mut tested, mut untested) = (f64::INFINITY, f64::INFINITY);
            for _ in 0..runs {
                tested = tested.min(timed(|| {
                    for _ in 0..CALLS {
                        black_box(by_numbers(leased.lent(), black_box(&Call::Get)));
                    }
                }));
                untested = untested.min(timed(|| {
                    for _ in 0..CALLS {
                        let Lent { keys, rows, registers } = leased.lent();
                        let short = Lent { keys, rows: &mut rows[1..], registers };
                        black_box(by_numbers(short, black_box(&Call::Get)));
                    }
                }));
            }
            (tested - untested) / CALLS as f64
        }
    }

    fn row(name: &str, count: usize, best: Best, test: Option<f64>) {
        let Best { ours, rust } = best;
        let share = match test {
            None => "none | 0".to_string(),
            Some(test) if test.is_nan() => "not measured | –".to_string(),
            Some(test) => format!("{test:.1} | {:.2}", test / ours),
        };
        println!("| {name} | {count} | {rust:.1} | {ours:.1} | {:.2} | {share} |", ours / rust);
    }

    /// The other ways to a machine: by bytes, by an image; and the way between them.
    fn beside(mixed: &Work, runs: u64) {
        let running_ours = library::linked().expect("linked");
        let image_ours = ours::linked().expect("linked");
        let bytes: Vec<_> = mixed.calls.iter().take(20_000).map(Call::bytes).collect();
        let mut best = [f64::INFINITY; 4];
        let mut image: Box<Image> = Box::new([0; IMAGE_BYTES]);
        let mut last = Box::new(mixed.last.clone());
        for _ in 0..runs {
            let (mut running, mut answer) = (Box::new(Running::new()), [0; 8]);
            let by_bytes = timed(|| {
                for call in &bytes {
                    black_box(running_ours.by_bytes(running.lent(), call, &mut answer));
                }
            });
            image.fill(0);
            let by_image = timed(|| {
                for call in &bytes {
                    black_box(image_ours.call(&mut image[..], call, &mut answer));
                }
            });
            let save = timed(|| {
                for _ in &bytes {
                    black_box(running_ours.save(last.lent(), &mut image[..]));
                }
            });
            let load = timed(|| {
                for _ in &bytes {
                    black_box(running_ours.load(last.lent(), &image[..]));
                }
            });
            for (best, took) in best.iter_mut().zip([by_bytes, by_image, load, save]) {
                *best = best.min(took / bytes.len() as f64);
            }
        }
        println!("| Beside these, ns | Ours |");
        println!("|---|---:|");
        for (name, took) in ["mixed, by bytes", "mixed, on the image", "load", "save"].iter().zip(best) {
            println!("| {name} | {took:.1} |");
        }
    }

    /// Nanoseconds of this process, user and system time together, so that other programs do not count.
    fn timed(work: impl FnOnce()) -> f64 {
        let start = cpu_time();
        work();
        cpu_time() - start
    }

    fn cpu_time() -> f64 {
        #[repr(C)]
        struct Timespec {
            seconds: i64,
            nanoseconds: i64,
        }
        extern "C" {
            fn clock_gettime(clock: i32, time: *mut Timespec) -> i32;
        }
        /// Linux's number; the struct is that of its 64-bit machines.
        const CLOCK_PROCESS_CPUTIME_ID: i32 = 2;
        let mut time = Timespec { seconds: 0, nanoseconds: 0 };
        let status = unsafe { clock_gettime(CLOCK_PROCESS_CPUTIME_ID, &mut time) };
        assert_eq!(status, 0, "a clock of the process");
        time.seconds as f64 * 1e9 + time.nanoseconds as f64
    }

    /// Ticks that something takes, with the stamps.
    #[inline]
    fn stamps(work: impl FnOnce()) -> u64 {
        let start = stamp();
        work();
        stamp() - start
    }

    /// The time stamp counter, behind all that came before it and ahead of all that follows.
    #[cfg(target_arch = "x86_64")]
    #[inline]
    fn stamp() -> u64 {
        use std::arch::x86_64::{_mm_lfence, _rdtsc};
        unsafe {
            _mm_lfence();
            let ticks = _rdtsc();
            _mm_lfence();
            ticks
        }
    }

    #[cfg(not(target_arch = "x86_64"))]
    fn stamp() -> u64 {
        static START: std::sync::OnceLock<Instant> = std::sync::OnceLock::new();
        START.get_or_init(Instant::now).elapsed().as_nanos() as u64
    }
}
