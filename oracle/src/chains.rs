//! Chains: steps and exceptions one after the other on the same windows, each from what the one before left.

use std::sync::LazyLock;

use crate::case::{Call, Case};
use crate::opcodes::*;
use crate::random::Random;
use crate::reference::Answer;
use crate::rounds::{exception, instruction, often};
use crate::state::*;
use crate::{operands, states, windows};

/// The calls of a chain.
pub const CHAIN: u64 = 10;

/// The opcodes of a chain, calls and returns before all; loads, stores and arithmetic stand between them.
const LINKS: [(u8, usize); 20] = [
    (PUSHJ, 5),
    (PUSHJB, 1),
    (PUSHGO, 1),
    (PUSHGOI, 1),
    (POP, 8),
    (SAVE, 3),
    (UNSAVE, 3),
    (PUT, 2),
    (PUTI, 3),
    (GETA, 2),
    (GETAB, 1),
    (GET, 2),
    (GO, 1),
    (GOI, 1),
    (TRIP, 1),
    (SWYM, 1),
    (SYNC, 1),
    (JMP, 1),
    (BZ, 1),
    (BNZ, 1),
];

static OPCODES: LazyLock<Vec<u8>> = LazyLock::new(|| often(&LINKS));
static TRANSFERS: LazyLock<Vec<u8>> = LazyLock::new(|| added().filter(|op| is_transfer(*op)).collect());

/// The registers that most loads and stores of a chain add up: an address near rO and a small offset.
const POINTER: u8 = 254;
const OFFSET: u8 = 253;

pub fn chain(random: &mut Random, run: &mut dyn FnMut(&Case) -> Option<Answer>) -> Option<()> {
    let mut state = states::admissible(random);
    let octabytes = random.pick(&[64, 256, 512, 1024, 2048]);
    let base = if random.one_in(4) { states::stack_offset(random) & !7 } else { STACK_START };
    state.special[RO] = base.wrapping_add(8 * random.below(octabytes / 2));
    state.special[RS] = state.special[RO];
    point(random, &mut state);
    let mut case = Case::one(Call::Initialize, state, base, vec![0; 8 * octabytes as usize]);
    windows::fill(random, &mut case.windows.b.bytes);
    windows::two(random, &mut case);
    case.partly = states::partly(random);
    let mut parked = 255;
    for _ in 0..CHAIN {
        case.call = link(random, &case.state, &mut parked);
        let answer = run(&case)?;
        case.state = answer.state;
        case.windows = answer.windows;
    }
    Some(())
}

/// Set the registers that loads and stores start from.
pub fn point(random: &mut Random, state: &mut State) {
    state.general[POINTER as usize] = state.special[RO].wrapping_add(random.below(64));
    state.general[OFFSET as usize] = random.below(64);
}

/// The next call of a chain. `parked` is the register that the last SAVE gave the address to.
pub fn link(random: &mut Random, state: &State, parked: &mut u8) -> Call {
    if random.one_in(12) {
        return exception(random).call;
    }
    let op = match random.below(16) {
        0 => random.byte(),
        1 | 2 => random.pick(&TRANSFERS),
        3 => random.range(MUL as u64, SRUI as u64) as u8,
        _ => random.pick(&OPCODES),
    };
    let mut i = instruction(random, op, &mut state.clone());
    match op {
        PUSHGO | PUSHGOI | PUSHJ | PUSHJB if random.one_in(2) => i.x = random.below(6) as u8,
        PUT => i.z = random.operand(),
        SAVE => *parked = i.x,
        UNSAVE if !random.one_in(6) => i.z = *parked,
        LDB..=LDOUI | STB..=STOUI => {
            i = operands::registers(random, op, state);
            i.y = random.pick(&[POINTER, POINTER, *parked]);
            i.z = if op % 2 == 1 { random.below(64) as u8 } else { OFFSET };
        }
        MUL..=SRUI => i = operands::registers(random, op, state),
        _ => {}
    }
    Call::Step(i)
}
