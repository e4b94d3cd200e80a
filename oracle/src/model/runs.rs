//! Change 6 of 02: one instruction fetched at PC, and a run of them.

use super::memory::{self, Memory, octabyte_of};
use super::{Changes, Outcome, arms, judged};
use crate::case::Instruction;
use crate::lent::Lent;
use crate::state::State;

/// The largest grant that is not refused by 25.
pub const GRANT_MOST: u64 = 1_000_000;

/// What a run leaves beside state and windows: the reply, how many instructions were done, and the octabytes that they and the
/// one refused need, each as often as it is needed.
pub struct Ran {
    pub reply: u64,
    pub done: u64,
    pub needs: Vec<u64>,
}

impl Ran {
    /// A call refused whole.
    fn refused(reply: u64) -> Self {
        Self { reply, done: 0, needs: Vec::new() }
    }
}

/// Whether $X is claimed before the arm: `writes_general_register_x` of the Rust, by 02.
fn claims(op: u8) -> bool {
    matches!(op, 0x01..=0x3F | 0x60..=0x99 | 0x9E..=0x9F | 0xBE..=0xEF | 0xF2..=0xF5 | 0xFA | 0xFE)
}

/// The tetra at PC, whose low two bits are dropped.
fn instruction(octabyte: u64, pc: u64) -> Instruction {
    let tetra = if pc % 8 < 4 { octabyte >> 32 } else { octabyte };
    let [op, x, y, z] = (tetra as u32).to_be_bytes();
    Instruction { op, x, y, z }
}

/// One fetched instruction, from 24 on.
pub fn fetched(state: &State, memory: &Memory) -> Outcome {
    let fetch = octabyte_of(state.pc);
    if !memory.holds(fetch) {
        return Outcome::refused(24, state).with_needs(vec![fetch]);
    }
    let i = instruction(memory.read(fetch), state.pc);
    let mut claimed = state.clone();
    if claims(i.op) {
        claimed.claim(i.x);
    }
    let mut outcome = arms::step(&claimed, i, memory);
    if claims(i.op) && !matches!(outcome.reply, 0 | 19) {
        outcome = Outcome { stores: outcome.stores, needs: outcome.needs, ..Outcome::refused(outcome.reply, state) };
    }
    outcome.needs.push(fetch);
    outcome
}

/// Judge 1, 2, 22 and 25, then do instruction after instruction.
pub fn run(grant: u64, state: &mut State, lent: Lent) -> Ran {
    let Lent { at, a, b } = lent;
    if !state.admissible() {
        return Ran::refused(1);
    }
    if let Some(reply) = judged(&Memory::of(at, a, b)) {
        return Ran::refused(reply);
    }
    if grant > GRANT_MOST {
        return Ran::refused(25);
    }
    let mut ran = Ran { reply: 0, done: 0, needs: Vec::new() };
    while ran.done < grant {
        let outcome = fetched(state, &Memory::of(at, a, b));
        ran.needs.extend(outcome.needs);
        *state = outcome.state;
        memory::apply(&outcome.stores, Lent { at, a: &mut *a, b: &mut *b });
        ran.reply = outcome.reply;
        if ran.reply != 0 {
            break;
        }
        ran.done += 1;
    }
    ran
}
