//! The opcodes by name, which build.rs makes of the names of include/mmix_disassemble.h, and what kinds of them there are. 2ADDU is ADDU2.

use std::sync::LazyLock;

use crate::model;

include!(concat!(env!("OUT_DIR"), "/opcodes.rs"));

/// Whether the Rust has an arm for the opcode.
pub fn is_ported(op: u8) -> bool {
    matches!(op, TRAP | BN..=PBEVB | GO | GOI | PUSHGO | PUSHGOI | JMP..=POP | SAVE..=TRIP)
}

static ADDED: LazyLock<[bool; 256]> =
    LazyLock::new(|| std::array::from_fn(|op| !is_ported(op as u8) && model::has_arm(op as u8)));

/// Whether the opcode was added to those that the Rust has an arm for: loads and stores, whole-number arithmetic.
pub fn is_added(op: u8) -> bool {
    ADDED[op as usize]
}

/// The added opcodes.
pub fn added() -> impl Iterator<Item = u8> {
    (0..=u8::MAX).filter(|op| is_added(*op))
}

/// A load or a store.
pub fn is_transfer(op: u8) -> bool {
    matches!(op, LDB..=LDOUI | STB..=STOUI)
}

pub fn is_arithmetic(op: u8) -> bool {
    matches!(op, MUL..=SRUI)
}

/// The even one of a pair: an operation by name, whether it takes $Z or Z.
pub fn even(op: u8) -> u8 {
    op & !1
}

/// The added opcodes that may raise D or V: signed stores of a byte, wyde or tetra; signed arithmetic, NEG of Z apart, for
/// Y − Z is small.
pub fn raises(op: u8) -> bool {
    match even(op) {
        STB | STW | STT | MUL | DIV | ADD | SUB | SL => true,
        _ => op == NEG,
    }
}
