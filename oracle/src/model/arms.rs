//! The steps apart from the stack, and exceptions.

use super::memory::Memory;
use super::{Changes, Outcome, arithmetic, loads, stack};
use crate::case::Instruction;
use crate::opcodes::*;
use crate::state::*;

/// The values of Y that name a system call of TRAP.
fn names_a_call(y: u8) -> bool {
    matches!(y, 0..=10 | 0x80..=0x82)
}

/// Bit k of `marks`: the vector at 16 × k is loaded.
fn loaded(state: &State, vector: u64) -> bool {
    state.marks >> (vector / 16) & 1 == 1
}

/// @ + 4 × field, the field being a negative count for a backward opcode.
fn target(state: &State, field: u64, bits: u32, backward: bool) -> u64 {
    let count = field as i64 - if backward { 1 << bits } else { 0 };
    state.pc.wrapping_add((4 * count) as u64)
}

/// The eight conditions of the branches, in the order of their opcodes.
fn holds(condition: u8, value: u64) -> bool {
    let negative = value >= 1 << 63;
    match condition {
        0 => negative,
        1 => value == 0,
        2 => !negative && value != 0,
        3 => value % 2 == 1,
        4 => !negative,
        5 => value != 0,
        6 => negative || value == 0,
        _ => value.is_multiple_of(2),
    }
}

/// From 3 on: the state is admissible, both windows keep their rule and share no octabyte.
pub fn step(state: &State, i: Instruction, memory: &Memory) -> Outcome {
    let Instruction { op, x, y, z } = i;
    let register = |r: u8| state.general[r as usize];
    let yz = 256 * y as u64 + z as u64;
    let xyz = 65536 * x as u64 + yz;
    let backward = op % 2 == 1;
    let second = if op % 2 == 1 { z as u64 } else { register(z) };
    match op {
        TRAP => trap(state, i),
        MUL..=SRUI => arithmetic::step(state, i),
        BN..=PBEVB => {
            let taken = holds(op / 2 % 8, register(x));
            let pc = if taken { target(state, yz, 16, backward) } else { state.pc.wrapping_add(4) };
            Outcome::done(state.clone().go_to(pc))
        }
        LDB..=LDOUI => loads::load(state, i, memory),
        STB..=STOUI => loads::store(state, i, memory),
        GO | GOI => {
            let mut after = state.clone();
            after.write_register(x, state.pc.wrapping_add(4));
            Outcome::done(after.go_to(register(y).wrapping_add(second)))
        }
        PUSHGO | PUSHGOI => stack::push(state, x, register(y).wrapping_add(second), memory),
        JMP | JMPB => Outcome::done(state.clone().go_to(target(state, xyz, 24, backward))),
        PUSHJ | PUSHJB => stack::push(state, x, target(state, yz, 16, backward), memory),
        GETA | GETAB => {
            let mut after = state.clone();
            after.write_register(x, target(state, yz, 16, backward));
            Outcome::done(after.go_on())
        }
        PUT | PUTI if state.hides(x) => Outcome::refused(31, state),
        PUT | PUTI => put(state, x as usize, second),
        POP => stack::pop(state, x, yz, memory),
        SAVE => stack::save(state, x, memory),
        UNSAVE => stack::unsave(state, register(z), memory),
        SYNC => match xyz {
            0..=3 => Outcome::done(state.clone().go_on()),
            4..=7 => Outcome::refused(17, state),
            _ => Outcome::refused(18, state),
        },
        SWYM => Outcome::done(state.clone().go_on()),
        GET => {
            if z > 31 {
                return Outcome::refused(5, state);
            }
            if state.hides(z) {
                return Outcome::refused(31, state);
            }
            let mut after = state.clone();
            after.write_register(x, state.special[z as usize]);
            Outcome::done(after.go_on())
        }
        TRIP => trip(state.clone(), 0, i, register(y), register(z)),
        _ => Outcome::refused(3, state),
    }
}

pub fn put(state: &State, x: usize, value: u64) -> Outcome {
    let (rg, rl) = (state.special[RG], state.special[RL]);
    let mut after = state.clone();
    match x {
        32.. => return Outcome::refused(7, state),
        RC | RI | RK | RQ | RT | RU | RV | RTT => return Outcome::refused(8, state),
        RN | RO | RS => return Outcome::refused(9, state),
        RG => {
            if value < 32 || value < rl || value > 255 {
                return Outcome::refused(10, state);
            }
            after.general[rg.min(value) as usize..rg.max(value) as usize].fill(0);
            after.special[RG] = value;
        }
        RL => {
            let kept = value.min(rl);
            after.general[kept as usize..rl as usize].fill(0);
            after.special[RL] = kept;
        }
        RA if value > RA_MAX => return Outcome::refused(11, state),
        _ => after.special[x] = value,
    }
    Outcome::done(after.go_on())
}

/// 2^63 + op × 2^24 + XYZ.
fn execution(i: Instruction) -> u64 {
    (1 << 63) + ((i.op as u64) << 24) + ((i.x as u64) << 16) + ((i.y as u64) << 8) + i.z as u64
}

fn trap(state: &State, i: Instruction) -> Outcome {
    if i.x == 0 && names_a_call(i.y) {
        return Outcome::refused(4, state);
    }
    let mut after = state.clone();
    after.special[RBB] = state.general[255];
    after.general[255] = state.special[RJ];
    after.special[RWW] = state.pc.wrapping_add(4);
    after.special[RXX] = execution(i);
    after.special[RYY] = state.general[i.y as usize];
    after.special[RZZ] = state.general[i.z as usize];
    Outcome::halted(20, after)
}

fn trip(state: State, vector: u64, i: Instruction, y_val: u64, z_val: u64) -> Outcome {
    let mut after = state.clone();
    after.special[RB] = state.general[255];
    after.general[255] = state.special[RJ];
    after.special[RW] = state.pc.wrapping_add(4);
    after.special[RX] = execution(i);
    after.special[RY] = y_val;
    after.special[RZ] = z_val;
    if !loaded(&state, vector) {
        return Outcome::halted(19, after);
    }
    Outcome::done(after.go_to(vector))
}

/// The state is admissible. Bits from left: D V W I O U Z X; the enables are rA's next eight bits. Every flag but the taken one
/// is added.
pub fn exceptions(state: &State, flags: u8, of: Instruction, y_val: u64, z_val: u64) -> Outcome {
    let enables = (state.special[RA] / 256 % 256) as u8;
    let taken = (0..8).find(|k| flags & enables & (0x80 >> k) != 0);
    let others = taken.map_or(flags, |k| flags & !(0x80 >> k));
    let mut after = state.clone();
    after.special[RA] |= others as u64;
    match taken {
        Some(k) => trip(after, 16 * (k + 1), of, y_val, z_val),
        None => Outcome::done(after.go_on()),
    }
}
