//! Whole-number arithmetic, MUL to SRU: Fascicle 1, "Arithmetic operations" and the shifts of section 1.3.1'. Numbers are
//! exact, in 128 bits; an octabyte is what is left of them modulo 2^64.

use std::cmp::Ordering;

use super::{Changes, Outcome, arms};
use crate::case::Instruction;
use crate::opcodes::*;
use crate::state::{RD, RH, RR, State};

/// Integer divide check and integer overflow, the first two of the flags D V W I O U Z X.
const D: u8 = 0x80;
const V: u8 = 0x40;

/// What an operation gives: $X, at times a special register, and its flag.
struct Results {
    x: u64,
    special: Option<(usize, u64)>,
    flags: u8,
}

impl Results {
    /// $X alone.
    fn of(x: u64) -> Self {
        Self { x, special: None, flags: 0 }
    }

    /// s($X) is a number modulo 2^64, with V where it is no signed octabyte.
    fn signed(exact: i128) -> Self {
        let flags = if exact == exact as i64 as i128 { 0 } else { V };
        Self { flags, ..Self::of(exact as u64) }
    }

    fn with(self, register: usize, value: u64) -> Self {
        Self { special: Some((register, value)), ..self }
    }
}

/// s(v): a register as a signed number.
fn s(v: u64) -> i128 {
    v as i64 as i128
}

/// u(v): a register as an unsigned number.
fn u(v: u64) -> u128 {
    v as u128
}

/// s($X) is ⌊s($Y) / s($Z)⌋ and s(rR) is s($Y) mod s($Z), which has the divisor's sign.
fn divide(y: u64, z: u64) -> Results {
    if z == 0 {
        return Results { flags: D, ..Results::of(0).with(RR, y) };
    }
    let (toward_zero, left) = (s(y) / s(z), s(y) % s(z));
    let below = left != 0 && (left < 0) != (s(z) < 0);
    let (quotient, remainder) = if below { (toward_zero - 1, left + s(z)) } else { (toward_zero, left) };
    Results::signed(quotient).with(RR, remainder as u64)
}

/// u($X) and u(rR) are quotient and remainder of u(rD $Y) / u($Z), where the quotient is an octabyte.
fn divide_unsigned(rd: u64, y: u64, z: u64) -> Results {
    if rd >= z {
        return Results::of(rd).with(RR, y);
    }
    let dividend = u(rd) << 64 | u(y);
    Results::of((dividend / u(z)) as u64).with(RR, (dividend % u(z)) as u64)
}

/// The product of two octabytes: rH is its upper half.
fn multiply_unsigned(y: u64, z: u64) -> Results {
    let product = u(y) * u(z);
    Results::of(product as u64).with(RH, (product >> 64) as u64)
}

/// −1, 0 or 1.
fn sign(order: Ordering) -> Results {
    Results::signed(order as i128)
}

/// A count of 64 does to an octabyte what any larger one does.
fn count(z: u64) -> u64 {
    z.min(64)
}

/// The operation on its operands; `rd` counts for DIVU only.
fn results(op: u8, y: u64, z: u64, rd: u64) -> Results {
    match even(op) {
        MUL => Results::signed(s(y) * s(z)),
        MULU => multiply_unsigned(y, z),
        DIV => divide(y, z),
        DIVU => divide_unsigned(rd, y, z),
        ADD => Results::signed(s(y) + s(z)),
        ADDU => Results::of((u(y) + u(z)) as u64),
        SUB | NEG => Results::signed(s(y) - s(z)),
        SUBU | NEGU => Results::of((s(y) - s(z)) as u64),
        ADDU2 => Results::of((2 * u(y) + u(z)) as u64),
        ADDU4 => Results::of((4 * u(y) + u(z)) as u64),
        ADDU8 => Results::of((8 * u(y) + u(z)) as u64),
        ADDU16 => Results::of((16 * u(y) + u(z)) as u64),
        CMP => sign(s(y).cmp(&s(z))),
        CMPU => sign(u(y).cmp(&u(z))),
        SL => Results::signed(s(y) << count(z)),
        SLU => Results::of((u(y) << count(z)) as u64),
        SR => Results::of((s(y) >> count(z)) as u64),
        SRU => Results::of((u(y) >> count(z)) as u64),
        _ => unreachable!("an arithmetic opcode"),
    }
}

/// $Y, or the constant Y of NEG and NEGU; $Z, or the constant Z of an odd opcode.
fn operands(state: &State, Instruction { op, y, z, .. }: Instruction) -> (u64, u64) {
    let first = if matches!(even(op), NEG | NEGU) { y as u64 } else { state.general[y as usize] };
    let second = if op % 2 == 1 { z as u64 } else { state.general[z as usize] };
    (first, second)
}

/// $X, rH and rR are written, and then D or V is raised with the operands as they were. Whatever comes of that, they stay
/// written.
pub fn step(state: &State, i: Instruction) -> Outcome {
    let (y, z) = operands(state, i);
    let Results { x, special, flags } = results(i.op, y, z, state.special[RD]);
    let mut after = state.clone();
    after.write_register(i.x, x);
    if let Some((register, value)) = special {
        after.special[register] = value;
    }
    arms::exceptions(&after, flags, i, y, z)
}
