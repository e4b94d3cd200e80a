//! Loads and stores, LDB to LDOU and STB to STOU: Fascicle 1, "Loading and storing" in section 1.3.1'.

use std::ops::Range;

use super::memory::{Memory, octabyte_of};
use super::{Changes, Outcome, arms};
use crate::case::Instruction;
use crate::state::State;

/// Integer overflow, the second of the flags D V W I O U Z X.
const V: u8 = 0x40;

/// What an instruction says of its operand in memory.
struct Operand {
    /// A, that is $Y + $Z or $Y + Z, with the low bits that are dropped for the operand.
    address: u64,
    /// 1, 2, 4 or 8 bytes: M1, M2, M4 or M8.
    size: usize,
    signed: bool,
}

impl Operand {
    fn of(state: &State, Instruction { op, y, z, .. }: Instruction) -> Self {
        let second = if op % 2 == 1 { z as u64 } else { state.general[z as usize] };
        let address = state.general[y as usize].wrapping_add(second);
        Self { address, size: 1 << (op / 4 % 4), signed: op / 2 % 2 == 0 }
    }

    /// Its places among the eight bytes of A's octabyte.
    fn places(&self) -> Range<usize> {
        let first = (self.address % 8) as usize / self.size * self.size;
        first..first + self.size
    }

    /// What 6, a load and a store need alike.
    fn needs(&self) -> Vec<u64> {
        vec![octabyte_of(self.address)]
    }

    /// Whether a register's value, as a signed number, is from −2^(8 × size − 1) to 2^(8 × size − 1) − 1.
    fn holds(&self, value: u64) -> bool {
        let limit = 1i128 << (8 * self.size - 1);
        (-limit..limit).contains(&(value as i64 as i128))
    }
}

/// $X becomes the operand, with copies of its sign to the left, or zeros where it is unsigned.
pub fn load(state: &State, i: Instruction, memory: &Memory) -> Outcome {
    let operand = Operand::of(state, i);
    if !memory.holds(operand.address) {
        return Outcome::missing(state, operand.needs());
    }
    let bytes = &memory.read(operand.address).to_be_bytes()[operand.places()];
    let left = if operand.signed && bytes[0] >= 0x80 { u64::MAX } else { 0 };
    let mut after = state.clone();
    after.write_register(i.x, bytes.iter().fold(left, |value, byte| value << 8 | *byte as u64));
    Outcome::done(after.go_on()).with_needs(operand.needs())
}

/// The operand becomes the low bytes of $X; a signed one that can't hold $X raises V, with A and $X as the operands of
/// the exception. Whatever comes of that, the store stays made.
pub fn store(state: &State, i: Instruction, memory: &Memory) -> Outcome {
    let operand = Operand::of(state, i);
    if !memory.holds(operand.address) {
        return Outcome::missing(state, operand.needs());
    }
    let value = state.general[i.x as usize];
    let mut bytes = memory.read(operand.address).to_be_bytes();
    bytes[operand.places()].copy_from_slice(&value.to_be_bytes()[8 - operand.size..]);
    let flags = if operand.signed && !operand.holds(value) { V } else { 0 };
    let raised = arms::exceptions(state, flags, i, operand.address, value);
    Outcome { stores: vec![(operand.address, u64::from_be_bytes(bytes))], needs: operand.needs(), ..raised }
}
