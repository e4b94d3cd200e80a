//! Cases in rounds of `ROUND`: what a round holds is fixed, so that each opcode meets each of its replies often
//! enough; the opcode goes on from round to round, all else is drawn.

use std::sync::LazyLock;

use crate::case::{Call, Case, Instruction, Kind};
use crate::chains::{CHAIN, chain};
use crate::opcodes::*;
use crate::random::Random;
use crate::reference::{Answer, has_arm};
use crate::state::*;
use crate::windows::{self, Saved};
use crate::{fields, numbers, operands, programs, states};

/// Cases a round: refusals by state, by window and by opcode, single steps, exceptions, context reads, a chain. Beside them a
/// round has two fields, windows that share octabytes, frames and contexts in two windows, and runs, which are not counted
/// among these.
pub const ROUND: u64 = ILL_STATES + ILL_WINDOWS + NO_ARMS + SINGLES + EXCEPTIONS + CONTEXTS + CHAIN;
const ILL_STATES: u64 = 11;
const ILL_WINDOWS: u64 = 11;
const NO_ARMS: u64 = 6;
const SINGLES: u64 = 42;
const EXCEPTIONS: u64 = 2;
const CONTEXTS: u64 = 2;
const SHARED: u64 = 11;
const LENT: u64 = 6;
const READ: u64 = 2;
const RUNS: u64 = 12;

/// The opcodes of frames and contexts, each as often as it has ways to lie in two windows.
const FRAMES: [(u8, usize); 7] = [(PUSHJ, 2), (PUSHGO, 1), (PUSHJB, 1), (PUSHGOI, 1), (POP, 5), (SAVE, 4), (UNSAVE, 6)];

/// The opcodes of single steps beside branches and those added, and how often each stands in a turn: the more ways to
/// go, the more often.
const AIMS: [(u8, usize); 20] = [
    (TRAP, 2),
    (GO, 1),
    (GOI, 1),
    (PUSHGO, 2),
    (PUSHGOI, 2),
    (JMP, 1),
    (JMPB, 1),
    (PUSHJ, 2),
    (PUSHJB, 2),
    (GETA, 1),
    (GETAB, 1),
    (PUT, 6),
    (PUTI, 4),
    (POP, 9),
    (SAVE, 4),
    (UNSAVE, 8),
    (SYNC, 2),
    (SWYM, 1),
    (GET, 3),
    (TRIP, 3),
];

/// The lists drawn from: opcodes of single steps, of frames and contexts, and those without an arm.
struct Opcodes {
    aims: Vec<u8>,
    frames: Vec<u8>,
    without: Vec<u8>,
}

static OPCODES: LazyLock<Opcodes> = LazyLock::new(|| Opcodes {
    aims: (BN..=PBEVB).chain(added()).chain(added().filter(|op| raises(*op))).chain(often(&AIMS)).collect(),
    frames: often(&FRAMES),
    without: (0..=255).filter(|op| !has_arm(*op)).collect(),
});

/// Each opcode as often as its weight says.
pub fn often(weights: &[(u8, usize)]) -> Vec<u8> {
    weights.iter().flat_map(|(op, n)| vec![*op; *n]).collect()
}

/// rO just inside and just outside of what POP takes.
const POP_LIMITS: [u64; 8] = [
    STACK_START,
    STACK_START + 1,
    STACK_START + 7,
    STACK_START + 8,
    (1 << 63) - 8,
    (1 << 63) - 1,
    1 << 63,
    (1 << 63) + 8,
];

/// Hand every case of a round to `run`, which gives the Rust's answer; `None` ends the round.
pub fn round(seed: u64, number: u64, run: &mut dyn FnMut(&Case) -> Option<Answer>) -> Option<()> {
    let random = &mut Random::new(seed, number);
    let place = |j: u64, n: u64| number.wrapping_mul(n).wrapping_add(j);
    for j in 0..ILL_STATES {
        let mut case = single(random, place(j, ILL_STATES) as u8);
        states::spoil(random, &mut case);
        match random.below(8) {
            0 | 1 => windows::spoil(random, &mut case),
            2 => windows::share(random, &mut case),
            _ => {}
        }
        run(&case)?;
    }
    for j in 0..ILL_WINDOWS {
        let mut case = single(random, place(j, ILL_WINDOWS) as u8);
        if random.one_in(3) {
            windows::share(random, &mut case);
        }
        windows::spoil(random, &mut case);
        run(&case)?;
    }
    let Opcodes { aims, frames, without } = &*OPCODES;
    for j in 0..NO_ARMS {
        let op = without[(place(j, NO_ARMS) % without.len() as u64) as usize];
        run(&single(random, op))?;
    }
    for j in 0..SINGLES {
        let op = aims[(place(j, SINGLES) % aims.len() as u64) as usize];
        run(&single(random, op))?;
    }
    for _ in 0..EXCEPTIONS {
        run(&exception(random))?;
    }
    run(&context(random))?;
    run(&if number.is_multiple_of(2) { initialize(random) } else { context(random) })?;
    chain(random, run)?;
    run(&fields::single(random, Kind::Branch))?;
    run(&fields::single(random, Kind::Jump))?;
    for j in 0..SHARED {
        let mut case = single(random, place(j, SHARED) as u8);
        windows::share(random, &mut case);
        run(&case)?;
    }
    for j in 0..LENT {
        let op = frames[(place(j, LENT) % frames.len() as u64) as usize];
        run(&single(random, op))?;
    }
    for _ in 0..READ {
        let mut case = context(random);
        if random.one_in(8) {
            windows::share(random, &mut case);
        }
        run(&case)?;
    }
    for _ in 0..RUNS {
        run(&programs::single(random))?;
    }
    Some(())
}

/// One step with a state and two windows made for it.
pub fn single(random: &mut Random, op: u8) -> Case {
    let mut case = with_one(random, op);
    windows::two(random, &mut case);
    case
}

/// One step with a state and one window, B, made for it.
pub fn with_one(random: &mut Random, op: u8) -> Case {
    if is_transfer(op) {
        return operands::single(random, op);
    }
    if is_arithmetic(op) {
        return numbers::single(random, op);
    }
    let mut state = states::admissible(random);
    let mut i = instruction(random, op, &mut state);
    let mut case = match op {
        PUSHGO | PUSHGOI | PUSHJ | PUSHJB => {
            let x = i.x as u64;
            let hole = if x >= state.special[RG] { state.special[RL] } else { x };
            stored(random, i, state, hole + 1)
        }
        SAVE => {
            let n = state.special[RL] + 270 - state.special[RG];
            stored(random, i, state, n)
        }
        POP => {
            match random.below(12) {
                0..4 => state.special[RO] = STACK_START + 8 * random.range(1, 400),
                4 | 5 => state.special[RO] = random.pick(&POP_LIMITS),
                6 => (state.special[RG], state.special[RL], i.x) = (255, random.range(254, 255), 255),
                _ => {}
            }
            let (ro, hole) = (state.special[RO], windows::hole(random, &state));
            let mut case = windowed(random, i, &state, ro.wrapping_sub(8 * (hole + 1)), hole + 1);
            let above = if random.one_in(2) { random.value() << 8 } else { 0 };
            windows::store(&mut case, ro.wrapping_sub(8), above | hole);
            case
        }
        UNSAVE => {
            let packed = if random.one_in(8) { random.below(8 * 300) } else { states::stack_offset(random) };
            let saved = Saved::draw(random, packed);
            state.general[i.z as usize] = saved.packed;
            let mut case = windowed(random, i, &state, saved.first(), saved.octabytes());
            saved.store(&mut case);
            case
        }
        _ => {
            let anywhere = random.any();
            let at = random.pick(&[state.special[RO], state.pc, anywhere]);
            let octabytes = random.below(40);
            windowed(random, i, &state, at, octabytes)
        }
    };
    case.partly = states::partly(random);
    case
}

/// A step that stores octabytes from rO, at times across the end of memory.
fn stored(random: &mut Random, i: Instruction, mut state: State, octabytes: u64) -> Case {
    if random.one_in(8) {
        state.special[RO] = 0u64.wrapping_sub(random.range(1, 8 * octabytes));
    }
    windowed(random, i, &state, state.special[RO], octabytes)
}

fn windowed(random: &mut Random, i: Instruction, state: &State, first: u64, octabytes: u64) -> Case {
    let (base, mut window) = windows::around(random, first, octabytes);
    windows::fill(random, &mut window);
    Case::one(Call::Step(i), state.clone(), base, window)
}

/// Operands at the limits that matter for an opcode; a register that it reads may be set for it.
pub fn instruction(random: &mut Random, op: u8, state: &mut State) -> Instruction {
    let (rg, rl) = (state.special[RG], state.special[RL]);
    let (mut x, mut y, mut z) = (states::near(random, state), random.operand(), random.operand());
    match op {
        TRAP => {
            x = if random.one_in(2) { 0 } else { x };
            y = if random.one_in(2) { random.pick(&[0, 1, 5, 10, 11, 12, 0x7F, 0x80, 0x82, 0x83]) } else { y };
        }
        PUT | PUTI => {
            x = match random.below(6) {
                0 => random.pick(&[32, 33, 64, 255, 32 + 19]),
                1 => random.pick(&[8, 12, 13, 14, 15, 16, 17, 18]),
                2 => random.pick(&[9, 10, 11]),
                3 => RG as u8,
                4 => RL as u8,
                _ if random.one_in(2) => RA as u8,
                _ => random.below(32) as u8,
            };
            let value = put_value(random, x as usize, rg, rl);
            if op == PUTI {
                z = value as u8;
            } else {
                state.general[z as usize] = value;
            }
        }
        POP => x = if random.one_in(3) { random.pick(&[0, 1, rl, (rl + 1).min(255)]) as u8 } else { x },
        SAVE => x = if random.one_in(5) { x } else { random.range(rg, 255) as u8 },
        SYNC => {
            let xyz = match random.below(4) {
                0 | 1 => random.below(4),
                2 => random.range(4, 7),
                _ => random.pick(&[8, 9, 255, 256, 257, 0x10000, 0x10004, 0xFFFFFF]),
            };
            (x, y, z) = ((xyz >> 16) as u8, (xyz >> 8) as u8, xyz as u8);
        }
        GET => {
            z = match random.below(6) {
                0 => random.pick(&[31, 32, 33, 64, 255]),
                1 => random.pick(&[RL as u8, RL as u8, RG as u8]),
                _ => random.below(40) as u8,
            }
        }
        TRIP => y = if random.one_in(4) { 255 } else { y },
        _ => {}
    }
    Instruction { op, x, y, z }
}

/// A value for PUT at the limits of its register.
fn put_value(random: &mut Random, x: usize, rg: u64, rl: u64) -> u64 {
    match x {
        RG => match random.below(3) {
            0 => random.pick(&[0, 31, 32, 33, 254, 255, 256, 257, 256 + rg, (1 << 32) + rg]),
            1 => random.pick(&[rl.saturating_sub(1), rl, rl + 1, rg - 1, rg, rg + 1]),
            _ => random.range(32, 255),
        },
        RL => match random.below(3) {
            0 => random.pick(&[0, 1, 255, 256, 256 + rl, 1 << 32, u64::MAX]),
            1 => random.pick(&[rl.saturating_sub(1), rl, rl + 1]),
            _ => random.range(0, rg),
        },
        RA => match random.below(2) {
            0 => random.pick(&[0, RA_MAX, RA_MAX + 1, RA_MAX + 2, 1 << 32, u64::MAX]),
            _ => random.below(RA_MAX + 1),
        },
        _ => random.value(),
    }
}

pub fn exception(random: &mut Random) -> Case {
    let mut state = states::admissible(random);
    if random.one_in(2) {
        state.special[RA] = random.below(4) << 16 | random.below(256) << 8 | random.below(256);
    }
    let flags = match random.below(4) {
        0 => random.pick(&[0, 0x80, 0x40, 0xC0, 1, 0xFF]),
        _ => random.byte(),
    };
    let of = Instruction { op: random.byte(), x: random.operand(), y: random.operand(), z: random.operand() };
    let call = Call::Exceptions { flags, of, y_val: random.value(), z_val: random.value() };
    let mut case = Case::none(call, state);
    case.partly = states::partly(random);
    if random.one_in(16) {
        states::spoil(random, &mut case);
    }
    case
}

pub fn context(random: &mut Random) -> Case {
    let mut case = with_one(random, UNSAVE);
    let Call::Step(i) = case.call else { unreachable!() };
    let address = case.state.general[i.z as usize];
    case.call = Call::Context { address };
    if random.one_in(3) {
        let across = case.windows.b.wraps() && random.one_in(2);
        windows::split_at(random, &mut case, if across { 0 } else { address });
    } else {
        windows::two(random, &mut case);
    }
    if random.one_in(16) {
        windows::spoil(random, &mut case);
    }
    case
}

/// Any image, with no window.
fn initialize(random: &mut Random) -> Case {
    let mut case = Case::none(Call::Initialize, states::admissible(random));
    match random.below(3) {
        0 => states::spoil(random, &mut case),
        1 => case.image_len = random.pick(&states::WRONG_LENGTHS),
        _ => {}
    }
    case
}
