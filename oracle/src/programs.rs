//! Programs for runs: loops, calls, loads and stores, code that changes itself, over both windows; PC with low bits, in A, in
//! B, across 2^64, at a window's end. The grant is drawn by what the program does: none, one, one less, just enough, more.

use crate::case::{Call, Case, Instruction};
use crate::lent::{Window, Windows};
use crate::model::Model;
use crate::opcodes::*;
use crate::random::Random;
use crate::reference::{Answer, GRANT_MOST};
use crate::rounds::instruction;
use crate::state::*;
use crate::subject::Subject;
use crate::windows::Saved;
use crate::{operands, states, windows};

/// A program is tried for so many instructions before a grant is drawn for it.
const TRIED: u64 = 150;

/// The registers that a program finds set: data in the stack's window, a small offset, its own first tetra, a saved context,
/// and an instruction to store.
const DATA: u8 = 254;
const OFFSET: u8 = 253;
const CODE: u8 = 252;
const SAVED: u8 = 251;
const TETRA: u8 = 250;

/// A program with windows and a grant.
pub fn single(random: &mut Random) -> Case {
    let mut state = states::admissible(random);
    if !random.one_in(4) {
        state.special[RG] = random.range(32, TETRA as u64);
        state.special[RL] = state.special[RL].min(random.pick(&[0, 3, 12, 250])).min(state.special[RG]);
    }
    let (octabytes, room) = (random.range(1, 16), random.pick(&[24, 64, 320, 640]));
    let mut windows = places(random, octabytes, room);
    if random.one_in(2) {
        windows::fill(random, &mut windows.b.bytes);
    }
    let Windows { a: code, b: stack } = &mut windows;
    state.special[RO] = stack.base.wrapping_add(8 * random.below(room / 2));
    if random.one_in(10) {
        state.special[RO] = state.special[RO].wrapping_add(random.range(1, 7));
    }
    state.special[RS] = state.special[RO];

    let tetras = 2 * octabytes;
    let first = if random.one_in(3) { random.below(tetras) } else { 0 };
    let count = (tetras - first).min(random.range(1, 24));
    for k in 0..8 {
        if random.one_in(2) {
            state.general[k] = random.below(12);
        }
    }
    state.general[DATA as usize] = stack.base.wrapping_add(8 * random.below(room));
    state.general[OFFSET as usize] = random.below(32);
    state.general[CODE as usize] = code.base.wrapping_add(4 * first);
    let packed = stack.end().wrapping_sub(8 * random.range(1, room / 2));
    let mut saved = Saved::draw(random, packed);
    if random.one_in(4) {
        saved.count = saved.rg + random.range(1, 3);
    }
    state.general[SAVED as usize] = saved.packed;

    let mut program: Vec<u32> = (0..count).map(|k| tetra(random, k, count, &mut state)).collect();
    if random.one_in(3) {
        let (piece, at) = (piece(random, &mut state), random.below(4));
        program.iter_mut().skip(at as usize).zip(piece).for_each(|(tetra, i)| *tetra = of(i));
    }
    if random.one_in(4) {
        program.resize((tetras - first) as usize, u32::from_be_bytes([SWYM, 0, 0, 0]));
    }
    let at = 4 * first as usize;
    for (bytes, tetra) in code.bytes[at..].chunks_exact_mut(4).zip(&program) {
        bytes.copy_from_slice(&tetra.to_be_bytes());
    }
    if code.end() == stack.base {
        let more: Vec<u8> = (0..4).flat_map(|k| tetra(random, k, 4, &mut state).to_be_bytes()).collect();
        stack.bytes[..16].copy_from_slice(&more);
    }
    state.pc = code.base.wrapping_add(match random.below(12) {
        0 => 4 * (tetras - 1),
        1 => random.pick(&[4 * tetras, 4u64.wrapping_neg(), 8 * octabytes + 64]),
        _ => 4 * first,
    });
    if random.one_in(3) {
        state.pc |= random.range(1, 3);
    }
    state.general[TETRA as usize] = tetra(random, 0, count, &mut state.clone()) as u64;

    let mut case = Case::new(Call::Run { grant: 0 }, state, windows);
    saved.store(&mut case);
    case.partly = states::partly(random);
    if random.one_in(3) {
        case.windows.exchange();
    }
    spoil(random, &mut case);
    case.call = Call::Run { grant: grant(random, &case) };
    case
}

/// Window A for the code, B for the stack: apart, touching, either across 2^64.
fn places(random: &mut Random, octabytes: u64, room: u64) -> Windows {
    let stack = match random.below(6) {
        0 => states::stack_offset(random) & !7,
        1 => (8 * random.range(1, room)).wrapping_neg(),
        _ => STACK_START,
    };
    let (below, above) = (stack.wrapping_sub(8 * octabytes), stack.wrapping_add(8 * room));
    let anywhere = 8 * random.below(1 << 61);
    let across = (8 * random.range(1, octabytes)).wrapping_neg();
    let code = random.pick(&[0, 0, 0x100, anywhere, across, across, below, above]);
    let window = |base: u64, octabytes: u64| Window { base, bytes: vec![0; 8 * octabytes as usize] };
    let mut windows = Windows { a: window(code, octabytes), b: window(stack, room) };
    if windows.share() {
        (windows.a.base, windows.b.base) = (0, STACK_START);
    }
    windows
}

/// At times a state that is not admissible, a window that breaks its rule, two that share: any two of them too.
fn spoil(random: &mut Random, case: &mut Case) {
    let which = random.below(30);
    if which == 0 || which == 3 {
        states::spoil(random, case);
    }
    if which == 1 || which >= 3 && which < 5 {
        windows::share(random, case);
    }
    if which == 2 || which == 4 {
        windows::spoil(random, case);
    }
}

/// What the program can do decides: one that stops gets less, just enough, more.
fn grant(random: &mut Random, case: &Case) -> u64 {
    let (mut state, mut windows, mut done) = (case.state.clone(), case.windows.clone(), 0);
    let reply = Model.run_parts(TRIED, (&mut state).into(), windows.lend(), &mut done);
    match random.below(16) {
        0 => random.pick(&[0, 1]),
        1..=4 if matches!(reply, 1 | 2 | 22) => GRANT_MOST + 1,
        1 => random.pick(&[GRANT_MOST + 1, GRANT_MOST + 1, GRANT_MOST + 2, 1 << 32, 1 << 63, u64::MAX]),
        2 => random.below(done + 2),
        _ if reply == 0 => random.range(1, TRIED),
        3 => done.saturating_sub(1),
        4 | 5 => done,
        6 => GRANT_MOST,
        7 => done + random.below(100),
        _ => done + 1,
    }
}

/// Tetra k of a program of so many.
fn tetra(random: &mut Random, k: u64, count: u64, state: &mut State) -> u32 {
    let target = if random.one_in(16) { count + random.below(3) } else { random.below(count) };
    let x = if random.one_in(2) { random.below(8) as u8 } else { states::near(random, state) };
    let byte = |v: u64| v.min(255) as u8;
    let i = match random.below(26) {
        0..=3 => {
            let op = random.range(MUL as u64, SRUI as u64) as u8;
            operands::registers(random, op, state)
        }
        4 => Instruction { op: ADDU + 1, x, y: x, z: random.below(4) as u8 },
        5..=7 => {
            let transfers: Vec<u8> = added().filter(|op| is_transfer(*op)).collect();
            let op = random.pick(&transfers);
            Instruction { op, x, y: DATA, z: if op % 2 == 1 { random.below(64) as u8 } else { OFFSET } }
        }
        8 => {
            let op = random.pick(&[STT, STT, STO, STB, STW, STTU]) + 1;
            let x = if random.one_in(4) { x } else { TETRA };
            Instruction { op, x, y: CODE, z: byte(4 * random.below(count)) }
        }
        9..=12 => leap(random.range(BN as u64, PBEVB as u64) as u8 & !1, x, k, target),
        13 => leap(JMP, 0, k, target),
        14 | 15 => leap(PUSHJ, x, k, target),
        16 | 17 => Instruction { op: POP, x: random.below(4) as u8, y: 0, z: 0 },
        18 => leap(GETA, x, k, target),
        19 => {
            let op = random.pick(&[GO, PUSHGO]) + 1;
            Instruction { op, x, y: if random.one_in(4) { x } else { CODE }, z: byte(4 * target) }
        }
        20 => Instruction { op: SUBU + 1, x: x % 8, y: x % 8, z: 1 },
        21 => {
            let op = random.pick(&[PUT, PUTI, GET, GET]);
            instruction(random, op, state)
        }
        22 if random.one_in(3) => Instruction { op: UNSAVE, x: 0, y: 0, z: random.pick(&[SAVED, SAVED, 255]) },
        22 => instruction(random, SAVE, state),
        23 => {
            let op = random.pick(&[SWYM, SYNC, TRIP, TRAP]);
            instruction(random, op, state)
        }
        24 => Instruction { op: SWYM, x, y: random.byte(), z: random.byte() },
        _ => {
            let op = random.byte();
            instruction(random, op, state)
        }
    };
    of(i)
}

fn of(i: Instruction) -> u32 {
    u32::from_be_bytes([i.op, i.x, i.y, i.z])
}

/// Instructions that chance seldom puts together: refusals of PUT, SYNC, SAVE and UNSAVE, SAVE with its UNSAVE, loads and GO
/// with marginal operands, operations that trip.
fn piece(random: &mut Random, state: &mut State) -> Vec<Instruction> {
    let (rg, rl) = (state.special[RG], state.special[RL]);
    let marginal = |random: &mut Random| random.range(rl, rg) as u8;
    let [x, y] = [marginal(random), marginal(random)];
    let one = |op: u8, x: u8, y: u8, z: u8| Instruction { op, x, y, z };
    match random.below(12) {
        0 => vec![one(PUT, random.pick(&[RG, RA, RA]) as u8, 0, TETRA)],
        1 => {
            let op = random.pick(&[PUT, PUTI]);
            vec![instruction(random, op, state)]
        }
        2 => vec![instruction(random, SYNC, state)],
        3..=5 => vec![one(UNSAVE, 0, 0, SAVED)],
        6 => vec![one(SAVE, 255, 0, 0), one(SWYM, 0, 0, 0), one(UNSAVE, 0, 0, 255)],
        7 => vec![one(SAVE, x, 0, 0)],
        8 => {
            state.general[y as usize] = state.general[DATA as usize];
            vec![one(LDO, x.max(y), y, OFFSET)]
        }
        9 => vec![one(GO, x.max(y), y, OFFSET)],
        10 => {
            state.special[RA] |= 0xFF00;
            state.marks = random.pick(&[0, MARKS_MAX]);
            vec![one(DIV + 1, x, y, 0)]
        }
        _ => vec![one(GET, x, 0, RL as u8)],
    }
}

/// From tetra k to another one, by a forward opcode or the backward one after it.
fn leap(op: u8, x: u8, from: u64, to: u64) -> Instruction {
    let [.., y, z] = to.wrapping_sub(from).to_be_bytes();
    match (op, to < from) {
        (JMP, true) => Instruction { op: JMPB, x: 255, y, z },
        (_, backward) => Instruction { op: op + backward as u8, x, y, z },
    }
}

/// Every opcode fetched once, with X local, marginal and global, Y and Z marginal too, all registers set, in either tetra of
/// an octabyte and with PC's low bits.
pub fn sweep(run: &mut dyn FnMut(&Case) -> Option<Answer>) -> Option<()> {
    for op in 0..=255 {
        for [x, y, z] in [[1, 9, 10], [9, 9, 10], [10, 9, 10], [12, 9, 20], [31, 32, 20], [32, 9, 10], [255, 9, 255]] {
            for (at, marks) in [(0x100, MARKS_MAX), (0x107, MARKS_MAX), (0x102, 0)] {
                let mut state = State::zero();
                (0..256).for_each(|k| state.general[k] = STACK_START + 0x800 + 8 * k as u64);
                state.general[10] = 8;
                (state.special[RG], state.special[RL], state.special[RA]) = (32, 8, 0xFF00);
                (state.special[RO], state.pc, state.marks) = (STACK_START + 8, at, marks);
                let mut a = vec![0; 0x110];
                let tetra = at as usize & !3;
                a[tetra..tetra + 4].copy_from_slice(&[op, x, y, z]);
                let (a, b) = (Window { base: 0, bytes: a }, Window { base: STACK_START, bytes: vec![0; 0x2000] });
                run(&Case::new(Call::Run { grant: 1 }, state, Windows { a, b }))?;
            }
        }
    }
    Some(())
}
