//! Random states at the boundaries of the thresholds, the stack and the marks, and states that are not
//! admissible.

use crate::case::Case;
use crate::random::Random;
use crate::state::{IMAGE_LEN, MARKS_MAX, OLD_IMAGE_LEN, RA, RA_MAX, RG, RL, RO, RS, STACK_START, State};

const TOP_BIT: u64 = 1 << 63;

/// Lengths that an image may not have.
pub const WRONG_LENGTHS: [usize; 8] =
    [0, 1, 8, OLD_IMAGE_LEN - 8, IMAGE_LEN - 1, IMAGE_LEN + 1, IMAGE_LEN + 8, 2 * IMAGE_LEN];

pub fn admissible(random: &mut Random) -> State {
    let mut state = State::zero();
    let rg = if random.one_in(2) { random.pick(&[32, 33, 254, 255]) } else { random.range(32, 255) };
    let rl = match random.below(4) {
        0 => random.pick(&[0, 1, rg - 1, rg]),
        1 => random.below(8),
        _ => random.range(0, rg),
    };
    state.special.fill_with(|| random.value());
    state.special[RG] = rg;
    state.special[RL] = rl;
    state.special[RA] = match random.below(4) {
        0 => random.pick(&[0, RA_MAX, 0xFF00, 0xFF, 0x8000]),
        _ => random.below(RA_MAX + 1),
    };
    state.special[RO] = stack_offset(random);
    if random.one_in(2) {
        state.special[RS] = state.special[RO];
    }

    let mixed = random.one_in(2);
    state.general.fill_with(|| if mixed { random.value() } else { random.any() });
    if random.one_in(2) {
        state.general[rl as usize..rg as usize].fill(0);
    }
    state.pc = match random.below(4) {
        0 => random.any(),
        1 => random.pick(&[0, 4, u64::MAX - 3, u64::MAX, TOP_BIT - 4, TOP_BIT, 0x40000]),
        _ => 4 * random.below(1 << 20),
    };
    state.halt = random.pick(&[0, 0, 1, 2, u64::MAX]);
    state.marks = match random.below(4) {
        0 => 0,
        1 => MARKS_MAX,
        _ => random.below(MARKS_MAX + 1),
    };
    state
}

/// A register's number at the thresholds, small, or any.
pub fn near(random: &mut Random, state: &State) -> u8 {
    let (rg, rl) = (state.special[RG], state.special[RL]);
    match random.below(3) {
        0 => random.pick(&[rl.saturating_sub(1), rl, rl + 1, rg - 1, rg, rg + 1]).min(255) as u8,
        1 => random.below(12) as u8,
        _ => random.operand(),
    }
}

/// rO: in the stack, at its start, below it, misaligned, near 2^63 and near 2^64.
pub fn stack_offset(random: &mut Random) -> u64 {
    let octabytes = 8 * random.below(600);
    let at = match random.below(16) {
        0 => STACK_START,
        1 => STACK_START.wrapping_sub(octabytes),
        2 => TOP_BIT - octabytes,
        3 => TOP_BIT + octabytes,
        4 => 0u64.wrapping_sub(octabytes),
        5 => octabytes,
        6 => random.any(),
        7 => STACK_START + 8 * random.range(1, 3),
        _ => STACK_START + octabytes,
    };
    if random.one_in(8) { at.wrapping_add(random.range(1, 7)) } else { at }
}

/// Loaded bytes of vectors that are not marked.
pub fn partly(random: &mut Random) -> u64 {
    if random.one_in(2) { 0 } else { random.any() & ((1 << 36) - 1) }
}

/// Break one rule of an admissible state, or the image's length.
pub fn spoil(random: &mut Random, case: &mut Case) {
    let special = &mut case.state.special;
    match random.below(6) {
        0 => special[RG] = random.pick(&[0, 1, 30, 31]),
        1 => special[RG] = random.pick(&[256, 257, 256 + 32, 256 + 255, (1 << 32) + 40, TOP_BIT + 32, u64::MAX]),
        2 => {
            let rg = special[RG];
            special[RL] = random.pick(&[rg + 1, rg + 2, 256, 256 + rg, (1 << 32) + 1, TOP_BIT, u64::MAX]);
        }
        3 => special[RA] = random.pick(&[RA_MAX + 1, RA_MAX + 2, 1 << 32, TOP_BIT, u64::MAX]),
        4 => case.state.marks |= random.pick(&[0x200, 0x400, 1 << 32, TOP_BIT]),
        _ => case.image_len = random.pick(&WRONG_LENGTHS),
    }
}
