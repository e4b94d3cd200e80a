//! Draws of loads and stores: their three registers, an operand at every place of memory and of its octabyte, values that
//! just fit and just don't, V enabled and its vector loaded, or not.

use crate::case::{Call, Case, Instruction};
use crate::random::Random;
use crate::state::{MARKS_MAX, RA, RG, RL, State};
use crate::{states, windows};

/// The bit of rA that enables V, and the mark of V's vector, 32.
pub const V_ENABLED: u64 = 0x4000;
pub const V_LOADED: u64 = 1 << 2;

/// A in full: $Y + $Z, or $Y + Z of an odd opcode.
pub fn address(state: &State, i: Instruction) -> u64 {
    let second = if i.op % 2 == 1 { i.z as u64 } else { state.general[i.z as usize] };
    state.general[i.y as usize].wrapping_add(second)
}

/// 2^7, 2^15, 2^31 or 2^63: the least number that a signed operand of the opcode's size can't hold.
pub fn limit(op: u8) -> u64 {
    1 << ((8 << (op / 4 % 4)) - 1)
}

/// The largest and the smallest number that fit below a limit, and those next to them that don't.
pub fn around_limit(limit: u64) -> [u64; 4] {
    [limit - 1, limit, limit.wrapping_neg(), limit.wrapping_neg().wrapping_sub(1)]
}

/// A load or store; its window has an edge at the operand's octabyte, one before, one after or far off.
pub fn single(random: &mut Random, op: u8) -> Case {
    let mut state = states::admissible(random);
    let i = registers(random, op, &state);
    state.general[i.x as usize] = value(random, op);
    let place = place(random);
    aim(random, i, &mut state, place);
    enable(random, &mut state, V_ENABLED, V_LOADED);
    let at = address(&state, i);
    let (base, mut window) = windows::around(random, at, 1);
    windows::fill(random, &mut window);
    let mut case = Case::one(Call::Step(i), state, base, window);
    if !random.one_in(4) {
        windows::store(&mut case, at, random.any());
    }
    case.partly = states::partly(random);
    case
}

/// X at the thresholds or 255; X among Y and Z, marginal too; Y and Z the same.
pub fn registers(random: &mut Random, op: u8, state: &State) -> Instruction {
    let (mut x, mut y, mut z) = (states::near(random, state), random.operand(), random.operand());
    let (rg, rl) = (state.special[RG], state.special[RL]);
    if rl < rg && random.one_in(4) {
        x = random.range(rl, rg - 1) as u8;
    }
    match random.below(12) {
        0 | 1 => y = x,
        2 | 3 => z = x,
        4 => (y, z) = (x, x),
        5 => z = y,
        6 | 7 => x = 255,
        _ => {}
    }
    Instruction { op, x, y, z }
}

/// An address: low, at 2^63 and at the end of memory on both sides, in the stack, or any; at each byte of its octabyte.
fn place(random: &mut Random) -> u64 {
    let distance = 8 * random.below(40);
    let octabyte = match random.below(8) {
        0 => distance,
        1 => (distance + 8).wrapping_neg(),
        2 => (1 << 63) - 8 - distance,
        3 => (1 << 63) + distance,
        4 => random.any() & !7,
        _ => states::stack_offset(random) & !7,
    };
    octabyte + random.below(8)
}

/// Set $Y, and $Z where it counts, so that A is `place`; only even places where both are one register.
fn aim(random: &mut Random, i: Instruction, state: &mut State, place: u64) {
    let Instruction { op, y, z, .. } = i;
    let offset = match random.below(3) {
        0 => random.below(300),
        1 => random.below(300).wrapping_neg(),
        _ => random.any(),
    };
    let general = &mut state.general;
    if op % 2 == 1 {
        general[y as usize] = place.wrapping_sub(z as u64);
    } else if y == z {
        general[y as usize] = place / 2 + (random.below(2) << 63);
    } else {
        (general[y as usize], general[z as usize]) = (place.wrapping_sub(offset), offset);
    }
}

/// A value of $X: at a limit of the opcode's size, or another's, signed and unsigned, or any.
fn value(random: &mut Random, op: u8) -> u64 {
    let limit = limit(if random.one_in(4) { random.byte() } else { op });
    match random.below(4) {
        0 | 1 => random.pick(&around_limit(limit)),
        2 => random.pick(&around_limit(limit.wrapping_mul(2).max(1))),
        _ => random.value(),
    }
}

/// Enabled with the vectors loaded or not, or disabled, or left to chance; the other bits stay.
pub fn enable(random: &mut Random, state: &mut State, enables: u64, vectors: u64) {
    match random.below(6) {
        0 => {
            state.special[RA] |= enables;
            state.marks |= vectors;
        }
        1 | 2 => {
            state.special[RA] |= enables;
            state.marks &= MARKS_MAX & !vectors;
        }
        3 => state.special[RA] &= !enables,
        _ => {}
    }
}
