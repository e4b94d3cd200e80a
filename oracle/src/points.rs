//! Points: drawn steps, fetched instructions and runs, some of them under a mask, lists, exceptions, context reads and the initial state,
//! most with two windows, with all that the Rust leaves of each, the model where the Rust has no arm (`reference`).
//! They are short enough for a prover to compute: registers and octabytes in lines (`starts`), most windows of few octabytes.

use crate::case::{Call, Case};
use crate::chains::{link, point};
use crate::compare::compare;
use crate::lendings::{self, LENDINGS};
use crate::lent::Windows;
use crate::model;
use crate::opcodes::*;
use crate::random::Random;
use crate::reference::{Answer, GRANT_MOST, Reference};
use crate::rounds::{exception, with_one};
use crate::situations::{self, SITUATIONS};
use crate::starts::Start;
use crate::state::{IMAGE_LEN, RD, RG, RL, RO, RS, STACK_START, State};
use crate::{masks, programs, states, windows};

/// Bytes of the longest window, a context of 270 octabytes with two to spare, and of most windows.
const LONGEST: usize = 8 * 272;
pub const SHORT: usize = 64;
/// How many steps are looked at for one in a given situation.
const TRIES: u64 = 100_000;

/// The opcodes that reach memory, claim a register or compute, where most limits are.
const LIMITED: [u8; 37] = [
    GO,
    GOI,
    GETA,
    GETAB,
    GET,
    GET,
    PUSHGO,
    PUSHGOI,
    PUSHJ,
    PUSHJB,
    POP,
    POP,
    POP,
    SAVE,
    UNSAVE,
    BN,
    LDB,
    LDW + 1,
    LDTU,
    LDO,
    STB,
    STW + 1,
    STT,
    STOU,
    MUL,
    MULU,
    DIV,
    DIV,
    DIVU,
    ADD,
    ADDU8,
    SUB,
    CMP,
    NEG,
    SL,
    SR,
    SRU,
];
/// The opcodes of most single steps, in turn; every byte has its turn between them.
const OPCODES: [u8; 36] = [
    PUSHJ, POP, SAVE, UNSAVE, PUT, TRAP, PUSHJB, PUTI, GET, POP, UNSAVE, PUSHGO, PUT, GETA, SAVE, TRAP, PUSHGOI, PUTI,
    GETAB, POP, SYNC, TRIP, TRAP, PUT, GO, GOI, UNSAVE, JMP, JMPB, BNB, PBEVB, PUT, PUSHJ, POP, TRAP, SWYM,
];

/// The opcodes of points for the sake of their windows.
const LENT: [u8; 12] = [PUSHJ, PUSHGO, POP, POP, SAVE, SAVE, UNSAVE, UNSAVE, LDO, LDB, STO, STB];

/// The opcodes of points under a mask.
const MASKED: [u8; 6] = [GET, GET, PUT, PUT, PUTI, SAVE];

/// Points in a turn.
const TURN: u64 = 36;
/// The most instructions that a run does, and that one is granted unless it is refused whole: the prover goes through all that are granted.
const DONE: u64 = 12;
const GRANTED: u64 = 2 * DONE;
/// The registers that a program finds set are at both ends.
const LINED: std::ops::Range<usize> = 16..250;

/// One point: what is done, from where, and what the Rust leaves.
pub enum Point {
    Single { case: Case, answer: Answer, touched: Vec<u64> },
    Fetched { case: Case, answer: Answer, touched: Vec<u64> },
    Run { case: Case, answer: Answer },
    List { start: Case, calls: Vec<Call>, replies: Vec<u64>, state: State, windows: Windows },
    Context { case: Case, answer: Answer },
    Initial { state: State },
}

impl Point {
    /// The replies, in the order in which they are given.
    pub fn replies(&mut self) -> &mut [u64] {
        match self {
            Point::Single { answer, .. }
            | Point::Fetched { answer, .. }
            | Point::Run { answer, .. }
            | Point::Context { answer, .. } => std::slice::from_mut(&mut answer.reply),
            Point::List { replies, .. } => replies,
            Point::Initial { .. } => &mut [],
        }
    }

    /// The point of a number, whatever the numbers before it were.
    pub fn drawn(seed: u64, number: u64) -> Result<Self, String> {
        Drawer { random: Random::new(seed, number), reference: Reference::new() }.point(number)
    }
}

struct Drawer {
    random: Random,
    reference: Reference,
}

impl Drawer {
    fn answer(&mut self, case: &Case) -> Result<Answer, String> {
        compare(&mut self.reference, &[], case).map_err(|e| format!("{e}\n{case}"))
    }

    /// The point of a number: singles, added opcodes, limits, exceptions, lists, contexts, windows that lie in some way to
    /// each other, masks, fetched instructions and runs, in turn.
    fn point(&mut self, number: u64) -> Result<Point, String> {
        let (turn, place) = (number / TURN, number % TURN);
        let nth = |first: u64, n: u64| (turn * n + place - first) as usize;
        match place {
            _ if number == 0 => self.initial(),
            0..=6 => self.single(OPCODES[nth(0, 7) % OPCODES.len()]),
            7..=9 => self.single(nth(7, 3) as u8),
            10..=13 => self.at_limit(nth(10, 4) % (SITUATIONS.len() - 1)),
            14 | 15 => self.raised(),
            16..=18 => self.list(),
            19 | 20 => self.context(),
            21 | 22 | 23 => self.lent(nth(21, 3) % (LENDINGS.len() - 1)),
            28 | 29 => self.masked(),
            30 | 31 => self.fetched(),
            32..=35 => self.run(),
            _ => self.single(added().nth(nth(24, 4) % added().count()).expect("an added opcode")),
        }
    }

    /// A step under a mask, most of them of a special register.
    fn masked(&mut self) -> Result<Point, String> {
        let op = self.random.pick(&MASKED);
        let mut case = self.straight(op);
        case.state.mask = masks::mask(&mut self.random, &case);
        let Call::Step(i) = case.call else { unreachable!("a step") };
        let case = self.spoiled(case);
        let touched = model::needs(i, &case.state, &case.windows);
        Ok(Point::Single { answer: self.veiled(&case)?, case, touched })
    }

    /// What the Rust leaves, and 31 where the mask comes in.
    fn veiled(&mut self, case: &Case) -> Result<Answer, String> {
        masks::expected(&mut self.reference, case).map(|told| told.answer).map_err(|e| format!("{e}\n{case}"))
    }

    /// A program short enough to compute, one in three under a mask, with registers in lines but for those that it finds set.
    fn program(&mut self) -> Case {
        let random = &mut self.random;
        loop {
            let mut case = if random.one_in(3) { masks::asking(random) } else { programs::single(random) };
            if case.windows.a.bytes.len().max(case.windows.b.bytes.len()) > 4 * SHORT {
                continue;
            }
            let (from, by) = (random.any(), random.any());
            for k in LINED {
                case.state.general[k] = from.wrapping_add(by.wrapping_mul(k as u64));
            }
            if random.one_in(3) {
                case.state.mask = masks::mask(random, &case);
            }
            if let Call::Run { grant } = &mut case.call
                && *grant <= GRANT_MOST
            {
                *grant = GRANTED.min(*grant);
            }
            return cut(case);
        }
    }

    /// One instruction, fetched.
    fn fetched(&mut self) -> Result<Point, String> {
        let mut case = self.program();
        case.call = Call::Run { grant: 1 };
        let answer = self.veiled(&case)?;
        let touched = model::run_needs(1, &case.state, &case.windows);
        Ok(Point::Fetched { case, answer, touched })
    }

    /// A run; of two in three some instructions are done.
    fn run(&mut self) -> Result<Point, String> {
        let least = if self.random.one_in(3) { 0 } else { 3 };
        loop {
            let case = self.program();
            let answer = self.veiled(&case)?;
            if (least..=DONE).contains(&answer.done) {
                return Ok(Point::Run { case, answer });
            }
        }
    }

    fn initial(&mut self) -> Result<Point, String> {
        let case = Case::none(Call::Initialize, states::admissible(&mut self.random));
        Ok(Point::Initial { state: self.answer(&case)?.state })
    }

    /// A step with two windows that fit, its registers and octabytes straightened; marginal registers are zero or not.
    fn straight(&mut self, op: u8) -> Case {
        let random = &mut self.random;
        let reaches = is_transfer(op) || matches!(op, PUSHGO | PUSHGOI | PUSHJ | PUSHJB | POP | SAVE | UNSAVE);
        let most = if random.one_in(16) { LONGEST } else { 4 * SHORT };
        let mut case = with_one(random, op);
        while reaches && case.windows.b.bytes.len() > most {
            case = with_one(random, op);
        }
        if !reaches {
            case.windows.b.bytes.truncate(SHORT);
        }
        let (partly, rd) = (case.partly, case.state.special[RD]);
        let mut case = Start::of(&case, random).case();
        case.partly = partly;
        if is_arithmetic(op) {
            case.state.special[RD] = rd;
        }
        if random.one_in(3) {
            let (from, by) = (random.any(), random.any());
            let marginal = case.state.special[RL] as usize..case.state.special[RG] as usize;
            for (k, v) in case.state.general[marginal].iter_mut().enumerate() {
                *v = from.wrapping_add(by.wrapping_mul(k as u64));
            }
        }
        self.doubled(case)
    }

    /// Two windows of one; a second one is short.
    fn doubled(&mut self, case: Case) -> Case {
        let most = case.windows.b.bytes.len().max(4 * SHORT);
        loop {
            let mut drawn = case.clone();
            windows::two(&mut self.random, &mut drawn);
            if [&drawn.windows.a, &drawn.windows.b].iter().all(|w| w.bytes.len() <= most) {
                return drawn;
            }
        }
    }

    /// One in twelve breaks a rule of the state, one in twelve a rule of a window, in one of twelve the windows share.
    fn spoiled(&mut self, mut case: Case) -> Case {
        match self.random.below(12) {
            0 => states::spoil(&mut self.random, &mut case),
            1 => windows::spoil(&mut self.random, &mut case),
            2 => windows::share(&mut self.random, &mut case),
            _ => {}
        }
        cut(case)
    }

    fn single(&mut self, op: u8) -> Result<Point, String> {
        let case = self.straight(op);
        let case = self.spoiled(case);
        self.answered(case)
    }

    fn answered(&mut self, case: Case) -> Result<Point, String> {
        let Call::Step(i) = case.call else { unreachable!("a step") };
        let answer = self.answer(&case)?;
        // What the Rust touched, as `compare` has checked; where 6 is given the Rust goes on, so only what 6 needs.
        let touched = model::needs(i, &case.state, &case.windows);
        Ok(Point::Single { case, answer, touched })
    }

    /// A step in one of the situations, of which the last, a window of 1,048,576 bytes, is too long to compute; any step
    /// where the situation is not met.
    fn at_limit(&mut self, situation: usize) -> Result<Point, String> {
        for _ in 0..TRIES {
            let op = self.random.pick(&LIMITED);
            let case = self.straight(op);
            let answer = self.answer(&case)?;
            let mut counts = [0; SITUATIONS.len()];
            situations::count(&case, &answer, &mut counts);
            if counts[situation] > 0 {
                return self.answered(case);
            }
        }
        self.single(SAVE)
    }

    /// A step or a read of a context in one of the situations of the windows, the last of which is too long to compute; any step
    /// where it is not met.
    fn lent(&mut self, situation: usize) -> Result<Point, String> {
        for _ in 0..TRIES {
            let case = match self.random.below(4) {
                0 => self.read(),
                _ => {
                    let op = self.random.pick(&LENT);
                    let mut case = self.straight(op);
                    match self.random.below(8) {
                        0 => windows::share(&mut self.random, &mut case),
                        1 => windows::spoil(&mut self.random, &mut case),
                        2 => {
                            states::spoil(&mut self.random, &mut case);
                            windows::share(&mut self.random, &mut case);
                        }
                        _ => {}
                    }
                    cut(case)
                }
            };
            let answer = self.answer(&case)?;
            let mut counts = [0; LENDINGS.len()];
            lendings::count(&case, &answer, &mut counts);
            if counts[situation] > 0 {
                return match case.call {
                    Call::Step(_) => self.answered(case),
                    _ => Ok(Point::Context { case, answer }),
                };
            }
        }
        self.single(SAVE)
    }

    fn raised(&mut self) -> Result<Point, String> {
        let mut case = exception(&mut self.random);
        case.image_len = IMAGE_LEN;
        let call = case.call;
        let sound = case.state.admissible();
        let mut start = if sound { Start::of(&case, &mut self.random).case() } else { self.straight(SWYM) };
        start.partly = case.partly;
        if !sound {
            states::spoil(&mut self.random, &mut start);
            start.image_len = IMAGE_LEN;
        }
        start.call = call;
        self.followed(start, vec![call])
    }

    /// Three to eight steps and exceptions on one window, each from what the one before left.
    fn list(&mut self) -> Result<Point, String> {
        let mut start = self.straight(SWYM);
        let random = &mut self.random;
        let octabytes = random.pick(&[8, 16, 24, 32]);
        if !random.one_in(3) {
            let rg = random.range(250, 255);
            start.state.special[RG] = rg;
            start.state.special[RL] = start.state.special[RL].min(random.range(0, 6));
        }
        let base = if random.one_in(4) { states::stack_offset(random) & !7 } else { STACK_START };
        start.windows = Windows::one(base, vec![0; 8 * octabytes]);
        start.state.special[RO] = base.wrapping_add(8 * random.below(4));
        start.state.special[RS] = start.state.special[RO];
        point(random, &mut start.state);
        let (mut parked, mut calls) = (255, Vec::new());
        for _ in 0..random.range(3, 8) {
            calls.push(link(random, &start.state, &mut parked));
        }
        let start = self.doubled(start);
        self.followed(start, calls)
    }

    fn followed(&mut self, start: Case, calls: Vec<Call>) -> Result<Point, String> {
        let (mut at, mut replies) = (start.clone(), Vec::new());
        for call in &calls {
            at.call = *call;
            let answer = self.answer(&at)?;
            replies.push(answer.reply);
            (at.state, at.windows) = (answer.state, answer.windows);
        }
        Ok(Point::List { start, calls, replies, state: at.state, windows: at.windows })
    }

    /// A read of a context; one in eight has windows that break a rule, one in eight windows that share.
    fn read(&mut self) -> Case {
        let mut case = self.straight(UNSAVE);
        let Call::Step(i) = case.call else { unreachable!("a step") };
        case.call = Call::Context { address: case.state.general[i.z as usize] };
        match self.random.below(8) {
            0 => windows::spoil(&mut self.random, &mut case),
            1 => windows::share(&mut self.random, &mut case),
            _ => {}
        }
        cut(case)
    }

    fn context(&mut self) -> Result<Point, String> {
        let case = self.read();
        let answer = self.answer(&case)?;
        Ok(Point::Context { case, answer })
    }
}

/// An image of the right length, and no window too long to compute.
fn cut(mut case: Case) -> Case {
    case.image_len = IMAGE_LEN;
    for window in [&mut case.windows.a, &mut case.windows.b] {
        if window.bytes.len() > LONGEST {
            window.bytes.truncate(SHORT + 1);
        }
    }
    case
}
