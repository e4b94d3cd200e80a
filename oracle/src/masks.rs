//! Masks: drawn steps, runs and exceptions on states that hide registers, and images of both lengths. The Rust has no mask: what it answers is
//! what a masked state must answer up to the first GET or PUT of a hidden register, and there it is 31. Each is done once more on a state that
//! differs in hidden registers alone, and nothing else may tell the two apart.

use crate::case::{Call, Case, Instruction};
use crate::compare::{codec, same};
use crate::lent::Windows;
use crate::opcodes::*;
use crate::random::Random;
use crate::reference::{Answer, Reference};
use crate::state::*;
use crate::subject::Subject;
use crate::{programs, rounds};

const REPLIES: usize = 32;
/// How often each situation must have been met.
const ENOUGH: u64 = 100;

/// The opcodes of single steps: GET and PUT, what writes or reads special registers otherwise, and some that do neither.
const OPS: [u8; 24] = [
    GET, GET, GET, GET, PUT, PUT, PUT, PUT, PUTI, PUTI, PUTI, TRAP, TRAP, TRIP, SAVE, UNSAVE, POP, PUSHJ, PUSHGO, MUL,
    DIVU, LDO, STB, GO,
];

/// What a call answers beside what it leaves.
pub(crate) struct Told {
    pub(crate) answer: Answer,
    /// A run's first instructions by the Rust, or all.
    cut: bool,
}

type Situation = (&'static str, fn(&Case, &Told) -> bool);

const SITUATIONS: [Situation; 10] = [
    ("GET of a hidden register", |case, told| of(case, GET) && told.answer.reply == 31),
    ("PUT of a hidden register", |case, told| (of(case, PUT) || of(case, PUTI)) && told.answer.reply == 31),
    ("GET under a mask", |case, told| of(case, GET) && told.answer.reply == 0 && case.state.mask != 0),
    ("PUT under a mask", |case, told| of(case, PUT) && told.answer.reply == 0 && case.state.mask != 0),
    ("5 or 7 under a mask", |case, told| matches!(told.answer.reply, 5 | 7) && case.state.mask != 0),
    ("a trap that writes hidden registers", |case, told| told.answer.reply == 20 && case.state.hides(RXX as u8)),
    ("a run stopped by 31", |case, told| matches!(case.call, Call::Run { .. }) && told.cut),
    ("a run stopped by 31 after others", |case, told| {
        matches!(case.call, Call::Run { .. }) && told.cut && told.answer.done > 0
    }),
    ("a bit that no mask may have", |case, told| told.answer.reply == 1 && case.state.mask & !HIDEABLE != 0),
    ("an empty mask, both lengths", |case, told| told.answer.reply == 0 && case.state.mask == 0),
];

fn of(case: &Case, op: u8) -> bool {
    matches!(case.call, Call::Step(i) if i.op == op)
}

/// How often each reply and each situation was met.
#[derive(Default)]
pub struct Met {
    calls: u64,
    replies: Vec<u64>,
    situations: [u64; SITUATIONS.len()],
}

impl Met {
    fn new() -> Self {
        Self { calls: 0, replies: vec![0; REPLIES], situations: [0; SITUATIONS.len()] }
    }

    pub fn calls(&self) -> u64 {
        self.calls
    }

    pub fn print(&self) {
        let met = (0..REPLIES).filter(|k| self.replies[*k] > 0).map(|k| format!("{k}: {}", self.replies[k]));
        println!("{:<14} {}", "under masks", met.collect::<Vec<_>>().join(", "));
        SITUATIONS.iter().zip(self.situations).for_each(|((name, _), count)| println!("  {name}: {count}"));
    }

    pub fn seldom(&self) -> Vec<String> {
        let few = SITUATIONS.iter().zip(self.situations).filter(|(_, count)| *count < ENOUGH);
        few.map(|((name, _), count)| format!("under masks, {name}: {count}")).collect()
    }

    fn count(&mut self, case: &Case, told: &Told) {
        self.calls += 1;
        self.replies[told.answer.reply as usize] += 1;
        for (count, (_, test)) in self.situations.iter_mut().zip(SITUATIONS) {
            *count += test(case, told) as u64;
        }
    }
}

/// The special register that a program's instruction names, if it does.
fn named(i: Instruction) -> Option<u8> {
    match i.op {
        GET => Some(i.z),
        PUT | PUTI => Some(i.x),
        _ => None,
    }
}

fn hidden(state: &State, i: Instruction) -> bool {
    named(i).is_some_and(|k| state.hides(k))
}

pub(crate) fn mask(random: &mut Random, case: &Case) -> u64 {
    let bit = match case.call {
        Call::Step(i) => named(i).filter(|k| *k < 32).map_or(0, |k| 1 << k),
        _ => 0,
    };
    let some = random.any() & HIDEABLE;
    match random.below(8) {
        0 => 0,
        1 | 2 => HIDEABLE,
        3 => bit & HIDEABLE,
        4 => HIDEABLE & !bit,
        5 => some | random.pick(&[1 << RB, 1 << RR, 1 << RO, 1 << RG, 1 << RA, 1 << RP, 1 << RZ, 1 << 32, 1 << 63]),
        _ => some,
    }
}

/// A program, often with a GET or PUT near its start of a register that may be hidden.
pub(crate) fn asking(random: &mut Random) -> Case {
    let mut case = programs::single(random);
    let at = (case.state.pc & !3).wrapping_add(4 * random.below(6));
    let register = random.below(32) as u8;
    let i = if random.one_in(2) { [GET, 255, 0, register] } else { [PUT, register, 0, 255] };
    if random.one_in(2)
        && HIDEABLE >> register & 1 == 1
        && let Some(window) = case.windows.holding_mut(at)
    {
        let from = at.wrapping_sub(window.base) as usize;
        window.bytes.iter_mut().skip(from).zip(i).for_each(|(byte, new)| *byte = new);
    }
    case
}

fn drawn(random: &mut Random) -> Case {
    let mut case = match random.below(8) {
        0 | 1 => asking(random),
        2 => rounds::exception(random),
        _ => {
            let op = random.pick(&OPS);
            rounds::single(random, op)
        }
    };
    case.image_len = IMAGE_LEN;
    case.state.mask = mask(random, &case);
    case
}

/// What the Rust leaves of the case, and 31 where the mask comes in.
pub(crate) fn expected(reference: &mut Reference, case: &Case) -> Result<Told, String> {
    let answer = reference.answer(case)?;
    let stopped = |mut answer: Answer| {
        (answer.reply, answer.state.halt) = (31, 1);
        Told { answer, cut: true }
    };
    match case.call {
        Call::Step(i) if hidden(&case.state, i) && !matches!(answer.reply, 1..=5 | 22) => {
            let (state, windows) = (case.state.clone(), case.windows.clone());
            Ok(stopped(Answer { state, windows, ..answer }))
        }
        Call::Run { .. } => match answer.ran.iter().position(|fetched| hidden(&case.state, fetched.i)) {
            None => Ok(Told { answer, cut: false }),
            Some(done) => {
                let mut short = case.clone();
                short.call = Call::Run { grant: done as u64 };
                Ok(stopped(reference.answer(&short)?))
            }
        },
        _ => Ok(Told { answer, cut: false }),
    }
}

/// What a call answers, and the state and windows that it leaves, the parts lent.
fn done(subject: &dyn Subject, case: &Case, state: &State) -> (u64, u64, State, Windows) {
    let (mut state, mut windows, mut count) = (state.clone(), case.windows.clone(), 0);
    let reply = match case.call {
        Call::Step(i) => subject.step_parts(i, (&mut state).into(), windows.lend()),
        Call::Run { grant } => subject.run_parts(grant, (&mut state).into(), windows.lend(), &mut count),
        Call::Exceptions { flags, of, y_val, z_val } => {
            subject.exceptions_parts(flags, of, y_val, z_val, (&mut state).into())
        }
        _ => unreachable!("steps, runs and exceptions"),
    };
    (reply, count, state, windows)
}

/// The case on two states that differ in hidden registers.
fn unseen(subject: &dyn Subject, case: &Case, random: &mut Random) -> Result<(), String> {
    let mut other = case.state.clone();
    for k in (0..32).filter(|k| case.state.hides(*k)) {
        other.special[k as usize] = random.value();
    }
    let (one, mut two) = (done(subject, case, &case.state), done(subject, case, &other));
    for k in (0..32).filter(|k| case.state.hides(*k)) {
        two.2.special[k as usize] = one.2.special[k as usize];
    }
    if let Some(difference) = one.2.difference(&two.2) {
        return Err(format!("what is hidden is seen: {difference}"));
    }
    if one != two {
        return Err(format!("what is hidden is seen: replies {} and {}, or the windows", one.0, two.0));
    }
    Ok(())
}

/// One case on each subject; what differs.
fn veiled(
    seed: u64,
    number: u64,
    reference: &mut Reference,
    subjects: &[Box<dyn Subject>],
    met: &mut Met,
) -> Result<(), String> {
    let mut random = Random::new(seed.rotate_left(16), number);
    let mut case = drawn(&mut random);
    let at = format!("mask {seed} {number}");
    let told = expected(reference, &case).map_err(|e| format!("{e}\n{at}"))?;
    for subject in subjects {
        let subject = subject.as_ref();
        let differs = |e: String| format!("{}: {e}\n{at}", subject.name());
        case.image_len = IMAGE_LEN;
        same(subject, &case, &told.answer).map_err(differs)?;
        if case.state.mask & !HIDEABLE == 0 {
            unseen(subject, &case, &mut random).map_err(differs)?;
        }
        case.image_len = OLD_IMAGE_LEN;
        match case.state.mask {
            0 => same(subject, &case, &told.answer).map_err(differs)?,
            _ => codec(subject, &case).map_err(differs)?,
        }
    }
    met.count(&case, &told);
    Ok(())
}

/// So many cases.
pub fn masks(seed: u64, count: u64, subjects: &[Box<dyn Subject>]) -> (Met, Result<(), String>) {
    let (mut met, mut reference) = (Met::new(), Reference::new());
    let found = (0..count).try_for_each(|number| veiled(seed, number, &mut reference, subjects, &mut met));
    (met, found)
}

/// The case that a line names, again.
pub fn replay(line: &str, subjects: &[Box<dyn Subject>]) -> Option<Result<(), String>> {
    let mut words = line.strip_prefix("mask ")?.split(' ');
    let (seed, number) = (words.next()?.parse().ok()?, words.next()?.parse().ok()?);
    Some(veiled(seed, number, &mut Reference::new(), subjects, &mut Met::new()))
}
