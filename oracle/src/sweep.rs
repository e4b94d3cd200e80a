//! Cases that are run in full and not drawn: all 65,536 pairs of flags and enables, vectors loaded and not; PUSH and POP
//! with every X at the thresholds' limits; loads and stores at every byte of the octabytes at a window's edges, and stores
//! of values that just fit and just don't; arithmetic of all numbers at limits, and its flags; short windows A and B at all
//! distances from each other, and frames and contexts cut in two at every octabyte.

use crate::case::{Call, Case, Instruction};
use crate::lent::{Window, Windows};
use crate::numbers::{BYTES, COUNTS, D_LOADED, EDGES, LEAST};
use crate::opcodes::*;
use crate::operands::{V_ENABLED, V_LOADED, around_limit, limit};
use crate::reference::Answer;
use crate::state::*;

pub fn exceptions(run: &mut dyn FnMut(&Case) -> Option<Answer>) -> Option<()> {
    let mut state = State::zero();
    state.special[RG] = 32;
    state.special[RJ] = 0x1234;
    state.general[255] = 0x5678;
    state.pc = 0x1000;
    let of = Instruction { op: 0x20, x: 1, y: 2, z: 3 };
    for flags in 0..=255u8 {
        for enables in 0..=255u64 {
            let taken = (flags & enables as u8).leading_zeros() as u64;
            for loaded in [0, 1 << (taken + 1)] {
                state.special[RA] = enables << 8;
                state.marks = if loaded == 0 { MARKS_MAX & !(1 << (taken + 1)) } else { loaded & MARKS_MAX };
                let call = Call::Exceptions { flags, of, y_val: 7, z_val: 9 };
                run(&Case::none(call, state.clone()))?;
            }
        }
    }
    Some(())
}

/// PUSHJ $X for every X, and after it POP with counts at and around rL.
pub fn frames(run: &mut dyn FnMut(&Case) -> Option<Answer>) -> Option<()> {
    for rg in [32, 33, 254, 255u64] {
        for rl in [0, 1, 2, rg - 1, rg] {
            for x in 0..=255u8 {
                let mut state = State::zero();
                (0..256).for_each(|k| state.general[k] = 0x100 + k as u64);
                state.general[rl as usize..rg as usize].fill(0);
                state.special[RG] = rg;
                state.special[RL] = rl;
                state.special[RO] = STACK_START;
                let call = Call::Step(Instruction { op: PUSHJ, x, y: 0, z: 5 });
                let mut case = Case::one(call, state, STACK_START, vec![0; 2048]);
                let answer = run(&case)?;
                case.state = answer.state;
                case.windows = answer.windows;
                let left = case.state.special[RL] as u8;
                for count in [0, 1, left, left.saturating_add(1), 255] {
                    case.call = Call::Step(Instruction { op: POP, x: count, y: 0, z: 1 });
                    run(&case)?;
                }
            }
        }
    }
    Some(())
}

/// A state with locals $0 to $7, the others from $8 to $31 marginal, all of them set.
fn numbered() -> State {
    let mut state = State::zero();
    (0..256).for_each(|k| state.general[k] = 0x8182_8384_8586_8700 + k as u64);
    (state.special[RG], state.special[RL], state.special[RJ]) = (32, 8, 0x1234);
    (state.pc, state.marks) = (0x1000, MARKS_MAX);
    state
}

/// X, Y and Z: X a local, a marginal and a global register, alone and the same as Y or Z.
const REGISTERS: [[u8; 3]; 8] =
    [[1, 2, 3], [2, 2, 3], [3, 2, 3], [9, 2, 3], [9, 9, 3], [9, 2, 9], [255, 2, 3], [255, 255, 3]];

/// Every load and store, at each byte of the octabyte before the window, its first, its last and the one after it, with
/// all of these registers. Windows are low, above 2^63 and across 2^64.
pub fn operands(run: &mut dyn FnMut(&Case) -> Option<Answer>) -> Option<()> {
    const LEN: u64 = 24;
    let edges = [8u64.wrapping_neg(), 0, LEN - 8, LEN];
    let distances: Vec<u64> = edges.iter().flat_map(|edge| (0..8).map(|low| edge.wrapping_add(low))).collect();
    for base in [64, (1 << 63) + 64, 8u64.wrapping_neg()] {
        for op in added().filter(|op| is_transfer(*op)) {
            for [x, y, z] in REGISTERS {
                for distance in &distances {
                    let mut state = numbered();
                    let second = if op % 2 == 1 { z as u64 } else { state.general[z as usize] };
                    state.general[y as usize] = base.wrapping_add(*distance).wrapping_sub(second);
                    let window = (0..LEN as u8).map(|k| 0x7D + k).collect();
                    run(&Case::one(Call::Step(Instruction { op, x, y, z }), state, base, window))?;
                }
            }
        }
    }
    Some(())
}

/// rA: V enabled or not, D enabled or not, beside other bits.
const ENABLES: [u64; 9] = [0, V_ENABLED, 0xFF00, 0x3BFFF, V_ENABLED | 0x40, 0x40, 0x8080, 0x8000, 0x37FFF];

/// Every store of values around the limits of each size, V enabled or not, beside other bits of rA, its vector loaded or not.
pub fn limits(run: &mut dyn FnMut(&Case) -> Option<Answer>) -> Option<()> {
    let values: Vec<u64> = [STB, STW, STT, STO].iter().flat_map(|op| around_limit(limit(*op))).collect();
    let loaded = [V_LOADED, MARKS_MAX & !V_LOADED];
    for (op, value) in (STB..=STOUI).flat_map(|op| values.iter().map(move |value| (op, *value))) {
        for (ra, marks) in ENABLES.iter().flat_map(|ra| loaded.map(|marks| (*ra, marks))) {
            for x in [1, 9, 255] {
                let (mut state, base) = (numbered(), STACK_START);
                (state.special[RA], state.marks, state.general[x as usize]) = (ra, marks, value);
                (state.general[2], state.general[3]) = (base, value % 8);
                let call = Call::Step(Instruction { op, x, y: 2, z: 3 });
                run(&Case::one(call, state, base, vec![0x55; 16]))?;
            }
        }
    }
    Some(())
}

/// Every operation on all pairs of numbers at limits, counts and constants among them, rD 0 and beside the divisor.
pub fn results(run: &mut dyn FnMut(&Case) -> Option<Answer>) -> Option<()> {
    let numbers: Vec<u64> = EDGES.into_iter().chain(COUNTS).collect();
    for op in MUL..=SRUI {
        let seconds: Vec<u64> = if op % 2 == 1 { BYTES.map(u64::from).to_vec() } else { numbers.clone() };
        for (first, second) in numbers.iter().flat_map(|first| seconds.iter().map(move |second| (*first, *second))) {
            let beside = [0, 1, second.wrapping_sub(1), second, second.wrapping_add(1), u64::MAX];
            for rd in if even(op) == DIVU { &beside[..] } else { &[0x77] } {
                let mut state = numbered();
                (state.general[2], state.general[3], state.special[RD]) = (first, second, *rd);
                let (y, z) = (if matches!(even(op), NEG | NEGU) { first as u8 } else { 2 }, second as u8);
                let i = Instruction { op, x: 1, y, z: if op % 2 == 1 { z } else { 3 } };
                run(&Case::none(Call::Step(i), state))?;
            }
        }
    }
    Some(())
}

/// Every operation with a result that fits, one that doesn't, and a divisor of 0; D and V enabled or not, their vectors
/// loaded or not, with all of these registers.
pub fn raised(run: &mut dyn FnMut(&Case) -> Option<Answer>) -> Option<()> {
    let pairs = [(LEAST, u64::MAX), (LEAST - 1, LEAST - 1), (LEAST, LEAST), (5, 0), (LEAST, 1), (7, 2)];
    let loaded = [MARKS_MAX, MARKS_MAX & !V_LOADED, MARKS_MAX & !D_LOADED, 0];
    for (op, (first, second)) in (MUL..=SRUI).flat_map(|op| pairs.map(|pair| (op, pair))) {
        for (ra, marks) in ENABLES.iter().flat_map(|ra| loaded.map(|marks| (*ra, marks))) {
            for [x, y, z] in REGISTERS {
                let mut state = numbered();
                (state.special[RA], state.marks, state.special[RD]) = (ra, marks, 4);
                (state.general[y as usize], state.general[z as usize]) = (first, second);
                let z = if op % 2 == 1 { second as u8 } else { z };
                run(&Case::none(Call::Step(Instruction { op, x, y, z }), state))?;
            }
        }
    }
    Some(())
}

/// Octabytes of the longest window that is put at every distance from another.
const FEW: u64 = 4;

/// A window of so many octabytes, none of them 0.
fn filled(base: u64, octabytes: u64) -> Window {
    Window { base, bytes: (0..8 * octabytes).map(|k| 0x11 + (k as u8)).collect() }
}

/// All windows A and B of up to four octabytes at all distances from each other, empty ones too, at 2^64, at 2^63 and between:
/// a step that needs nothing and the context reader; a frame of two octabytes at each place around them, loads and stores
/// there. The first two also with one base, or one length, that breaks its rule.
pub fn distances(run: &mut dyn FnMut(&Case) -> Option<Answer>) -> Option<()> {
    let all = |n: u64| (0..=n).flat_map(move |k| (0..=n).map(move |j| (k, j)));
    for base in [0u64, 64, 16u64.wrapping_neg(), (1 << 63) - 16] {
        for ((na, nb), shift) in all(FEW).flat_map(|sizes| (0..=2 * FEW + 2).map(move |shift| (sizes, shift))) {
            let a = filled(base.wrapping_add(8 * shift).wrapping_sub(8 * (FEW + 1)), na);
            let windows = Windows { a, b: filled(base, nb) };
            without_needs(&windows, base, run)?;
            around(&windows, base, run)?;
            for spoil in SPOILS {
                let mut spoiled = windows.clone();
                spoil(&mut spoiled);
                without_needs(&spoiled, base, run)?;
            }
        }
    }
    Some(())
}

/// Ways to break the rule of A or of B.
const SPOILS: [fn(&mut Windows); 6] = [
    |w| w.a.base = w.a.base.wrapping_add(4),
    |w| w.b.base = w.b.base.wrapping_add(1),
    |w| w.a.bytes.push(7),
    |w| w.b.bytes.extend([7; 4]),
    |w| w.a.bytes.resize(WINDOW_MAX + 8, 0),
    |w| w.b.bytes.resize(WINDOW_MAX + 8, 0),
];

/// A step on these windows with rO and $2 at an address, $3 5.
fn stepped(windows: &Windows, op: u8, x: u8, at: u64) -> Case {
    let mut state = numbered();
    (state.special[RO], state.general[2], state.general[3]) = (at, at, 5);
    Case::new(Call::Step(Instruction { op, x, y: 2, z: 3 }), state, windows.clone())
}

/// A step that needs nothing, and the reader.
fn without_needs(windows: &Windows, at: u64, run: &mut dyn FnMut(&Case) -> Option<Answer>) -> Option<()> {
    let step = stepped(windows, SWYM, 0, at);
    run(&step)?;
    run(&Case { call: Call::Context { address: at }, ..step })?;
    Some(())
}

/// A frame, loads and stores at each octabyte around an address.
fn around(windows: &Windows, base: u64, run: &mut dyn FnMut(&Case) -> Option<Answer>) -> Option<()> {
    for at in (0..4 * FEW).map(|k| base.wrapping_add(8 * k).wrapping_sub(8 * (FEW + 2))) {
        for (op, x) in [(PUSHJ, 1), (LDTU, 1), (STB, 1), (STO, 255)] {
            run(&stepped(windows, op, x, at))?;
        }
    }
    Some(())
}

/// A stretch of memory as two windows that touch after so many octabytes, or, with a gap, one octabyte less in the upper. The lower
/// is A, or B.
fn cut(base: u64, bytes: &[u8], at: usize, gap: usize, a_below: bool) -> Windows {
    let upper = Window { base: base.wrapping_add(8 * (at + gap) as u64), bytes: bytes[8 * (at + gap)..].to_vec() };
    let mut windows = Windows { a: Window { base, bytes: bytes[..8 * at].to_vec() }, b: upper };
    if !a_below {
        windows.exchange();
    }
    windows
}

/// A frame and a context, each cut in two at every octabyte, A below or B below, with nothing missing or one octabyte, in the stack
/// and across 2^64, rO misaligned or not: PUSHJ, then POP of what it left; SAVE, then UNSAVE and the reader of what it left.
pub fn cuts(run: &mut dyn FnMut(&Case) -> Option<Answer>) -> Option<()> {
    const LEN: usize = 24;
    let starts = [(STACK_START, 8), (STACK_START, 11), (96u64.wrapping_neg(), 8), (96u64.wrapping_neg(), 13)];
    for ((base, into), at) in starts.iter().flat_map(|start| (0..=LEN).map(move |at| (*start, at))) {
        for (gap, a_below) in [(0, true), (0, false), (1, true), (1, false)] {
            if at + gap > LEN {
                continue;
            }
            let mut state = numbered();
            (state.special[RG], state.special[RO]) = (252, base.wrapping_add(into));
            state.general[8..252].fill(0);
            let whole = filled(base, LEN as u64).bytes;
            let windows = cut(base, &whole, at, gap, a_below);
            let start = Case::new(Call::Step(Instruction { op: PUSHJ, x: 7, y: 0, z: 5 }), state, windows);
            pair(&start, POP, run)?;
            for (op, x) in [(PUSHJ, 0), (PUSHJ, 20), (SAVE, 255)] {
                let mut start = start.clone();
                start.call = Call::Step(Instruction { op, x, y: 0, z: 5 });
                pair(&start, if op == SAVE { UNSAVE } else { POP }, run)?;
            }
        }
    }
    Some(())
}

/// A step, and what takes it back, from what it left; after a SAVE the reader too, its context whole and damaged. Where the step
/// is refused, the other is tried on memory that it could not have written.
fn pair(start: &Case, back: u8, run: &mut dyn FnMut(&Case) -> Option<Answer>) -> Option<()> {
    let answer = run(start)?;
    let mut case = Case { state: answer.state, windows: answer.windows, ..start.clone() };
    if answer.reply != 0 && back == UNSAVE {
        case.state.general[255] = case.state.special[RO].wrapping_add(8 * 22);
    }
    for count in [0, 2] {
        case.call = Call::Step(Instruction { op: back, x: if back == POP { count } else { 0 }, y: 0, z: 255 });
        run(&case)?;
    }
    if back != UNSAVE {
        return Some(());
    }
    let packed = case.state.general[255];
    case.call = Call::Context { address: packed };
    run(&case)?;
    // Its rG too small, its rA too large, its local count too large.
    for (at, value) in [(0, 31 << 56), (0, 252 << 56 | (RA_MAX + 1)), (17, 253), (17, 256 + 8)] {
        let mut damaged = case.clone();
        crate::windows::store(&mut damaged, packed.wrapping_sub(8 * at), value);
        run(&damaged)?;
        damaged.call = Call::Step(Instruction { op: UNSAVE, x: 0, y: 0, z: 255 });
        run(&damaged)?;
    }
    Some(())
}
