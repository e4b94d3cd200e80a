//! Compare with the Rust on many cases: the library where it is linked, and the model. For loads, stores and whole-number
//! arithmetic the Rust has no arm, and flags two of which are raised and enabled it forgets: there the library is compared with
//! the model alone. Points to return to, which the Rust has not either, are compared with a ledger (src/histories.rs), N / 200
//! histories of calls; sets of special registers with the Rust's PUT, pair by pair (src/sets.rs), N / 10 sets; and states with a mask, which the
//! Rust has not, with the Rust up to the first GET or PUT of a hidden register, N / 5 calls (src/masks.rs), each on two states;
//! calls of several tasks with the Rust's runs on A and a part of B, turn by turn, N / 20 calls (src/tasks.rs).
//!
//!     differential [--cases N] [--seed S] [--threads T] [--guards pages|heap]
//!     differential --replay LINE [--guards pages|heap]
//!
//! Runs N drawn cases (200,000 unless told), then the sweeps if N is at least 100,000, and prints how often each
//! opcode met each reply; if N is at least 200,000, each must have been met often enough. A case that differs is
//! printed as one line, made small, that `--replay` runs again. With guards, only the library is compared (the model
//! where it is not linked), each of its buffers in a guarded place (src/guards.rs). The exit status is 1 where
//! something differs or was met too seldom.

use std::process::ExitCode;
use std::sync::Mutex;
use std::sync::atomic::{AtomicBool, Ordering};
use std::thread;
use std::time::Instant;

use oracle::areas;
use oracle::case::{self, Case};
use oracle::compare::compare;
use oracle::fields;
use oracle::guards::{self, Guard};
use oracle::histories;
use oracle::masks;
use oracle::programs;
use oracle::reference::{Answer, Reference};
use oracle::rounds::{ROUND, round};
use oracle::sets;
use oracle::shrink::shrink;
use oracle::subject::{Subject, guarded, subjects};
use oracle::sweep;
use oracle::tally::Tally;
use oracle::tasks;

/// The least number of cases with which the sweeps are run, and with which the counts are judged.
const SWEPT_FROM: u64 = 100_000;
const COUNTED_FROM: u64 = 200_000;
/// Every so many cases the run says how far it is.
const TOLD_EVERY: u64 = 100_000;
/// One history of points for so many cases.
const HISTORY_EVERY: u64 = 200;
/// One set for so many.
const SET_EVERY: u64 = 10;
/// One call under a mask for so many.
const MASK_EVERY: u64 = 5;
/// One call of several tasks for so many.
const TASKS_EVERY: u64 = 20;

struct Options {
    cases: u64,
    seed: u64,
    threads: u64,
    guard: Option<Guard>,
    replay: Option<String>,
}

fn options() -> Result<Options, String> {
    let threads = thread::available_parallelism().map_or(1, |n| n.get() as u64);
    let mut options = Options { cases: 200_000, seed: 2009, threads, guard: None, replay: None };
    let mut arguments = std::env::args().skip(1);
    while let Some(name) = arguments.next() {
        let value = arguments.next().ok_or_else(|| format!("{name} has no value"))?;
        let number = || value.parse().map_err(|e| format!("{name} {value}: {e}"));
        match (name.as_str(), value.as_str()) {
            ("--cases", _) => options.cases = number()?,
            ("--seed", _) => options.seed = number()?,
            ("--threads", _) => options.threads = number()?.max(1),
            ("--guards", "pages") => options.guard = Some(Guard::Pages),
            ("--guards", "heap") => options.guard = Some(Guard::Heap),
            ("--replay", _) => options.replay = Some(value),
            _ => return Err(format!("no such option: {name} {value}")),
        }
    }
    Ok(options)
}

fn chosen(guard: Option<Guard>) -> Vec<Box<dyn Subject>> {
    guard.map_or_else(subjects, |guard| vec![guarded(guard)])
}

/// Compares case after case, until one differs.
struct Runner<'a> {
    reference: Reference,
    subjects: Vec<Box<dyn Subject>>,
    tally: Tally,
    stop: &'a AtomicBool,
    found: &'a Mutex<Vec<String>>,
}

impl Runner<'_> {
    fn run(&mut self, case: &Case) -> Option<Answer> {
        if self.stop.load(Ordering::Relaxed) {
            return None;
        }
        guards::at_case(case);
        match compare(&mut self.reference, &self.subjects, case) {
            Ok(answer) => {
                self.tally.count(case, &answer);
                Some(answer)
            }
            Err(_) => {
                self.stop.store(true, Ordering::Relaxed);
                self.report(case);
                None
            }
        }
    }

    fn report(&mut self, case: &Case) {
        let small = shrink(&mut Reference::new(), &self.subjects, case);
        let difference = match compare(&mut Reference::new(), &self.subjects, &small) {
            Err(difference) => format!("{difference}\n{small}"),
            Ok(_) => format!("differs only after other cases\n{case}"),
        };
        self.found.lock().unwrap().push(difference);
    }

    /// A part of all rounds, and then on the first thread the sweeps.
    fn work(&mut self, options: &Options, part: u64) -> Option<()> {
        for number in (part..options.cases.div_ceil(ROUND)).step_by(options.threads as usize) {
            round(options.seed, number, &mut |case| self.run(case))?;
            let done = number * ROUND;
            if part == 0 && done >= TOLD_EVERY && done % TOLD_EVERY < options.threads * ROUND {
                eprintln!("{done} cases so far");
            }
            if number % 64 == 0 && !self.reference.memory_is_followed() {
                self.found.lock().unwrap().push("the harness lost track of the Rust's memory".to_string());
                return None;
            }
        }
        if part == 0 && options.cases >= SWEPT_FROM {
            sweep::exceptions(&mut |case| self.run(case))?;
            sweep::frames(&mut |case| self.run(case))?;
            sweep::operands(&mut |case| self.run(case))?;
            sweep::limits(&mut |case| self.run(case))?;
            fields::sweep(&mut |case| self.run(case))?;
            sweep::results(&mut |case| self.run(case))?;
            sweep::raised(&mut |case| self.run(case))?;
            sweep::distances(&mut |case| self.run(case))?;
            sweep::cuts(&mut |case| self.run(case))?;
            programs::sweep(&mut |case| self.run(case))?;
        }
        Some(())
    }
}

fn replay(line: &str, guard: Option<Guard>) -> Result<bool, String> {
    let subjects = chosen(guard);
    if let Some(told) = histories::replay(line, &subjects)
        .or_else(|| sets::replay(line, &subjects))
        .or_else(|| masks::replay(line, &subjects))
        .or_else(|| tasks::replay(line, &subjects))
    {
        println!("{}", told.as_ref().map_or_else(|difference| difference.as_str(), |()| "same"));
        return Ok(told.is_ok());
    }
    let case = case::parse(line)?;
    guards::at_case(&case);
    match compare(&mut Reference::new(), &chosen(guard), &case) {
        Ok(answer) => {
            println!("same: reply {}, PC {:x}, {} done by a run", answer.reply, answer.state.pc, answer.done);
            Ok(true)
        }
        Err(difference) => {
            println!("{difference}");
            Ok(false)
        }
    }
}

/// All cases on all threads: the counts, and what differs.
fn run(options: &Options) -> (Tally, Vec<String>) {
    let (stop, found) = (AtomicBool::new(false), Mutex::new(Vec::new()));
    let mut total = Tally::default();
    let worker = |part: u64| {
        let (reference, subjects) = (Reference::new(), chosen(options.guard));
        let mut runner = Runner { reference, subjects, tally: Tally::default(), stop: &stop, found: &found };
        runner.work(options, part);
        runner.tally
    };
    thread::scope(|scope| {
        let workers: Vec<_> = (0..options.threads).map(|part| scope.spawn(move || worker(part))).collect();
        for worker in workers {
            total.add(&worker.join().expect("a worker panicked"));
        }
    });
    (total, found.into_inner().unwrap())
}

fn differential(options: &Options) -> bool {
    let began = Instant::now();
    let (met, history) = histories::histories(options.seed, options.cases / HISTORY_EVERY, &chosen(options.guard));
    let (put, set) = sets::sets(options.seed, options.cases / SET_EVERY, &chosen(options.guard));
    let (veiled, mask) = masks::masks(options.seed, options.cases / MASK_EVERY, &chosen(options.guard));
    let (several, task) = tasks::tasks(options.seed, options.cases / TASKS_EVERY, &chosen(options.guard));
    let (total, found) = history
        .and(set)
        .and(mask)
        .and(task)
        .map_or_else(|difference| (Tally::default(), vec![difference]), |()| run(options));
    total.print();
    met.print();
    put.print();
    veiled.print();
    several.print();
    let counted = options.cases >= COUNTED_FROM && found.is_empty();
    let all = || [total.seldom(), met.seldom(), put.seldom(), veiled.seldom(), several.seldom()].concat();
    let seldom = if counted { all() } else { Vec::new() };
    seldom.iter().for_each(|pair| println!("TOO SELDOM: {pair}"));
    found.iter().for_each(|difference| println!("DIFFERS: {difference}"));
    let names: Vec<&str> = chosen(options.guard).iter().map(|subject| subject.name()).collect();
    println!(
        "{} cases, {} of them loads, stores and arithmetic, {} two enabled flags and {} POPs without a frame by the model, {} calls on stores, {} sets, {} under masks, {} of several tasks, seed {}, \
         Rust against {}, {:.1} s: {}",
        total.cases(),
        total.added(),
        total.two_enabled(),
        total.no_frame(),
        met.calls(),
        put.calls(),
        veiled.calls(),
        several.calls(),
        options.seed,
        names.join(" and "),
        began.elapsed().as_secs_f64(),
        if found.is_empty() { "no difference" } else { "differences found" }
    );
    found.is_empty() && seldom.is_empty()
}

fn main() -> ExitCode {
    areas::keep_freed();
    let outcome = options().and_then(|options| {
        if options.guard.is_some() {
            guards::report_faults();
        }
        match &options.replay {
            Some(line) => replay(line, options.guard),
            None => Ok(differential(&options)),
        }
    });
    match outcome {
        Ok(true) => ExitCode::SUCCESS,
        Ok(false) => ExitCode::FAILURE,
        Err(message) => {
            eprintln!("{message}");
            ExitCode::from(2)
        }
    }
}
