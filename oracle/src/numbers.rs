//! Draws of whole-number arithmetic: operands at the limits of width and sign, and of every length; results that just fit and
//! just don't; divisors beside rD; counts around 64; D and V enabled and their vectors loaded, or not.

use crate::case::{Call, Case, Instruction};
use crate::opcodes::*;
use crate::operands::{self, V_ENABLED, V_LOADED, around_limit};
use crate::random::Random;
use crate::state::{RD, RO, State};
use crate::{states, windows};

/// The bit of rA that enables D, and the mark of D's vector, 16.
pub const D_ENABLED: u64 = 0x8000;
pub const D_LOADED: u64 = 1 << 1;

/// The most negative number.
pub const LEAST: u64 = 1 << 63;

/// Numbers at the limits of an octabyte, of its sign and of its half, and small ones of both signs.
pub const EDGES: [u64; 26] = [
    0,
    1,
    2,
    7,
    63,
    64,
    u64::MAX,
    u64::MAX - 1,
    7u64.wrapping_neg(),
    LEAST,
    LEAST + 1,
    LEAST - 1,
    LEAST - 2,
    LEAST / 2,
    LEAST / 2 - 1,
    LEAST + LEAST / 2,
    1 << 32,
    (1 << 32) + 1,
    (1 << 32) - 1,
    1 << 31,
    (1 << 31) - 1,
    (1u64 << 32).wrapping_neg(),
    (1u64 << 31).wrapping_neg(),
    0x5555_5555_5555_5555,
    0xAAAA_AAAA_AAAA_AAAA,
    0x0123_4567_89AB_CDEF,
];

/// Counts of a shift.
pub const COUNTS: [u64; 14] = [0, 1, 2, 31, 32, 62, 63, 64, 65, 127, 128, 256, LEAST, u64::MAX];

/// Constants Y and Z.
pub const BYTES: [u8; 12] = [0, 1, 2, 7, 10, 62, 63, 64, 65, 127, 128, 255];

/// What an instruction works on: $Y, or Y of NEG and NEGU; $Z, or Z of an odd opcode.
pub fn values(state: &State, Instruction { op, y, z, .. }: Instruction) -> [u64; 2] {
    let register = |r: u8| state.general[r as usize];
    let first = if matches!(even(op), NEG | NEGU) { y as u64 } else { register(y) };
    [first, if op % 2 == 1 { z as u64 } else { register(z) }]
}

/// An operation with operands that go together; the window, which does not count, is a short one.
pub fn single(random: &mut Random, op: u8) -> Case {
    let mut state = states::admissible(random);
    let registers = operands::registers(random, op, &state);
    let i = constants(random, registers);
    set(random, i, &mut state);
    let (enables, vectors) = match even(op) {
        DIV => (D_ENABLED | V_ENABLED, D_LOADED | V_LOADED),
        _ => (V_ENABLED, V_LOADED),
    };
    operands::enable(random, &mut state, enables, vectors);
    let octabytes = random.below(4);
    let (base, mut window) = windows::around(random, state.special[RO], octabytes);
    windows::fill(random, &mut window);
    let mut case = Case::one(Call::Step(i), state, base, window);
    case.partly = states::partly(random);
    case
}

/// Y of NEG and Z of an odd opcode at their limits; a divisor is 0 more often than by chance.
fn constants(random: &mut Random, i: Instruction) -> Instruction {
    let Instruction { op, x, mut y, mut z } = i;
    if matches!(even(op), NEG | NEGU) && random.one_in(2) {
        y = random.pick(&BYTES);
    }
    if op % 2 == 1 && random.one_in(2) {
        z = if matches!(even(op), DIV | DIVU) && random.one_in(2) { 0 } else { random.pick(&BYTES) };
    }
    Instruction { op, x, y, z }
}

/// Set $Z where it counts, then $Y for it, and rD for DIVU. Where Y and Z are one register, the latter stays.
fn set(random: &mut Random, i: Instruction, state: &mut State) {
    let (y, z) = (i.y as usize, i.z as usize);
    if i.op.is_multiple_of(2) {
        state.general[z] = second(random, i);
    }
    let by = values(state, i)[1];
    if !(matches!(even(i.op), NEG | NEGU) || i.op.is_multiple_of(2) && y == z) {
        state.general[y] = first(random, i.op, by);
    }
    if i.op == DIV && y != z && random.one_in(8) {
        (state.general[y], state.general[z]) = (LEAST, u64::MAX);
    }
    if even(i.op) == DIVU {
        state.special[RD] = upper(random, by);
    }
}

/// A number at a limit, of any length, or any.
fn value(random: &mut Random) -> u64 {
    match random.below(4) {
        0 | 1 => random.pick(&EDGES),
        2 => random.any() >> random.below(64),
        _ => (random.any() >> random.below(64)).wrapping_neg(),
    }
}

/// One less, the number itself, or one more.
fn beside(random: &mut Random, v: u64) -> u64 {
    v.wrapping_add(random.below(3)).wrapping_sub(1)
}

/// A second operand: a count for a shift, at times 0 for a division, beside the limits of Y − $Z for NEG.
fn second(random: &mut Random, i: Instruction) -> u64 {
    match even(i.op) {
        SL | SLU | SR | SRU => match random.below(4) {
            0 | 1 => random.pick(&COUNTS),
            2 => random.below(70),
            _ => value(random),
        },
        DIV | DIVU if random.one_in(4) => 0,
        NEG if random.one_in(2) => (i.y as u64).wrapping_sub(random.pick(&around_limit(LEAST))),
        _ => value(random),
    }
}

/// A first operand: most draws give one that is beside a limit together with the second.
fn first(random: &mut Random, op: u8, z: u64) -> u64 {
    if random.one_in(3) {
        return value(random);
    }
    let signed = random.pick(&around_limit(LEAST));
    match even(op) {
        ADD => signed.wrapping_sub(z),
        SUB => signed.wrapping_add(z),
        ADDU => beside(random, z.wrapping_neg()),
        SUBU | CMP | CMPU => beside(random, z) ^ (random.below(2) << 63),
        MUL if z != 0 => {
            let quotient = (signed as i64 as i128 / z as i64 as i128) as u64;
            beside(random, quotient)
        }
        MULU if z != 0 => beside(random, ((1 << 64) / z as u128) as u64),
        ADDU2 | ADDU4 | ADDU8 | ADDU16 => beside(random, z.wrapping_neg() / scale(op)),
        DIV | DIVU => {
            let multiple = z.wrapping_mul(random.below(9).wrapping_sub(4));
            beside(random, multiple)
        }
        SL if z < 64 => random.pick(&around_limit(LEAST >> z)),
        _ => value(random),
    }
}

/// 2, 4, 8 or 16 for 2ADDU to 16ADDU.
pub fn scale(op: u8) -> u64 {
    2 << ((op - ADDU2) / 2)
}

/// rD beside the divisor, below it, 0 or any.
fn upper(random: &mut Random, divisor: u64) -> u64 {
    match random.below(6) {
        0 => 0,
        1 | 2 => beside(random, divisor),
        3 | 4 if divisor > 0 => random.below(divisor),
        _ => value(random),
    }
}
