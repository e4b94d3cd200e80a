//! What is measured. Each point leaves the machine so that it can be run again: a call is followed by its
//! return, a SAVE by its UNSAVE.

use oracle::case::Instruction;
use oracle::opcodes::*;
use oracle::state::{MARKS_MAX, RA, RD, RG, RL, RO, RS, STACK_START, State};

pub enum Work {
    Steps(Vec<Instruction>),
    Exceptions(u8),
}

/// What a point is held to.
#[derive(Clone, Copy, PartialEq, Eq)]
pub enum Kind {
    Simple,
    Exception,
    /// So many times as fast as the Rust's arms.
    Memory {
        times: u64,
    },
    /// A load or store, for which the Rust has no arm: set against the branch `BRANCH`.
    Transfer,
    /// Whole-number arithmetic, for which it has none either: set against that branch.
    Operation,
    /// A division, beside Rust's own of 128 bits; held to a multiple of it or not.
    Division {
        held: bool,
    },
}

impl Kind {
    /// Whether the Rust has an arm for the point.
    pub fn in_rust(self) -> bool {
        !matches!(self, Kind::Transfer | Kind::Operation | Kind::Division { .. })
    }
}

pub struct Point {
    pub name: String,
    pub kind: Kind,
    pub state: State,
    /// Bytes of window A, which is at 0.
    pub a: usize,
    pub work: Work,
}

impl Point {
    /// How many instructions a row has the sum of.
    pub fn instructions(&self) -> usize {
        match &self.work {
            Work::Steps(code) => code.len(),
            Work::Exceptions(_) => 1,
        }
    }
}

fn start(rg: u64, rl: u64) -> State {
    let mut state = State::zero();
    state.special[RG] = rg;
    state.special[RL] = rl;
    state.special[RO] = STACK_START;
    state.special[RS] = STACK_START;
    state.marks = MARKS_MAX;
    state.pc = 0x1_0000_0000;
    (0..rl as usize).chain(rg as usize..256).for_each(|k| state.general[k] = k as u64 + 1);
    state
}

fn steps(name: &str, state: State, code: &[[u8; 4]]) -> Point {
    let code = code.iter().map(|&[op, x, y, z]| Instruction { op, x, y, z }).collect();
    Point { name: name.to_string(), kind: Kind::Simple, state, a: 0, work: Work::Steps(code) }
}

fn memory(name: &str, times: u64, state: State, code: &[[u8; 4]]) -> Point {
    Point { kind: Kind::Memory { times }, ..steps(name, state, code) }
}

fn exceptions(name: &str, enables: u64, flags: u8) -> Point {
    let mut state = start(32, 10);
    state.special[RA] = enables << 8;
    Point { name: name.to_string(), kind: Kind::Exception, state, a: 0, work: Work::Exceptions(flags) }
}

/// A load or store in place: A is $5 + $1, the last byte of an octabyte.
fn transfer(name: &str, op: u8) -> Point {
    let mut state = start(32, 10);
    (state.general[5], state.general[1]) = (STACK_START + 64, 7);
    Point { kind: Kind::Transfer, ..steps(name, state, &[[op, 3, 5, 1]]) }
}

/// The same with A lent too; its operand is in A, or in B.
fn transfer_beside(name: &str, op: u8, in_a: bool) -> Point {
    let mut point = transfer(name, op);
    if in_a {
        point.state.general[5] = 64;
    }
    beside(point)
}

/// A point with A of the bench program's size lent too.
fn beside(point: Point) -> Point {
    Point { name: point.name + ", A lent", a: LENT, ..point }
}

/// Bytes of A in the bench program.
const LENT: usize = 2048;

/// X, Y and Z of an operation in place.
pub const OPERATION: [u8; 3] = [3, 5, 1];

fn operation(name: &str, kind: Kind, op: u8, [rd, y, z]: [u64; 3]) -> Point {
    let mut state = start(32, 10);
    (state.special[RD], state.general[5], state.general[1]) = (rd, y, z);
    let [x, y, z] = OPERATION;
    Point { kind, ..steps(name, state, &[[op, x, y, z]]) }
}

/// Operations that overflow nowhere. A divisor is of 20 bits or of 64.
fn operations() -> Vec<Point> {
    let (small, large) = (1_000_003, 0xFEDC_BA98_7654_3211);
    let (y, negative) = (0x0123_4567_89AB_CDEF, 0xFEDC_BA98_7654_3211);
    let division = |name: &str, op: u8, operands: [u64; 3]| {
        operation(name, Kind::Division { held: op == DIVU && operands[0] > 0 }, op, operands)
    };
    let operation = |name: &str, op: u8, y: u64, z: u64| operation(name, Kind::Operation, op, [0, y, z]);
    vec![
        operation("MUL", MUL, 0x1234_5678_9ABC, negative >> 50),
        operation("MULU", MULU, y, negative),
        operation("ADD", ADD, y, negative),
        operation("CMP", CMP, y, negative),
        operation("SL", SL, 0x1234_5678_9ABC, 9),
        operation("SRU", SRU, negative, 9),
        division("DIV", DIV, [0, negative, small]),
        division("DIVU, rD 0", DIVU, [0, negative, small]),
        division("DIVU, rD > 0, divisor small", DIVU, [small - 5, y, small]),
        division("DIVU, rD > 0, divisor large", DIVU, [y, negative, large]),
    ]
}

/// The name of the branch that loads, stores and operations are set against.
pub const BRANCH: &str = "BN";

pub fn points() -> Vec<Point> {
    let plain = || start(32, 10);
    let mut points = vec![
        steps("branch taken", plain(), &[[BNZ, 1, 0, 5]]),
        steps("branch not taken", plain(), &[[BZ, 1, 0, 5]]),
        steps(BRANCH, plain(), &[[BN, 1, 0, 5]]),
        transfer("LDO", LDO),
        transfer("LDB", LDB),
        transfer("STO", STO),
        transfer("STB", STB),
    ];
    points.extend(operations());
    points.extend([
        steps("JMP", plain(), &[[JMP, 0, 0, 5]]),
        steps("GETA", plain(), &[[GETA, 3, 0, 5]]),
        steps("GO", plain(), &[[GOI, 3, 1, 5]]),
        steps("GET rD", plain(), &[[GET, 3, 0, 1]]),
        steps("PUT rD", plain(), &[[PUT, 1, 0, 2]]),
        steps("PUT rG 64 + 32", start(32, 0), &[[PUTI, RG as u8, 0, 64], [PUTI, RG as u8, 0, 32]]),
        steps("PUT rL", plain(), &[[PUTI, RL as u8, 0, 10]]),
        steps("SWYM", plain(), &[[SWYM, 0, 0, 0]]),
        steps("TRIP", plain(), &[[TRIP, 1, 2, 3]]),
        exceptions("exception taken", 0x80, 0x80),
        exceptions("exception not taken", 0, 0x80),
    ]);
    for (hole, rg) in [(0, 32), (8, 32), (31, 32), (0, 255), (8, 255), (31, 255), (200, 255)] {
        let (name, times) = (format!("PUSHJ + POP, H {hole}, rG {rg}"), if hole == 0 { 4 } else { 20 });
        points.push(memory(&name, times, start(rg, hole as u64), &[[PUSHJ, hole, 0, 5], [POP, 0, 0, 0]]));
    }
    for rg in [32, 255] {
        let name = format!("SAVE + UNSAVE, rG {rg}");
        points.push(memory(&name, 20, start(rg, 10), &[[SAVE, 255, 0, 0], [UNSAVE, 0, 0, 255]]));
    }
    points.extend([
        beside(steps("branch taken", plain(), &[[BNZ, 1, 0, 5]])),
        transfer_beside("LDO of B", LDO, false),
        transfer_beside("LDO of A", LDO, true),
        transfer_beside("STO of B", STO, false),
        transfer_beside("STO of A", STO, true),
    ]);
    for (hole, rg) in [(0, 32), (8, 32), (31, 32), (200, 255)] {
        let (name, times) = (format!("PUSHJ + POP, H {hole}, rG {rg}"), if hole == 0 { 4 } else { 20 });
        points.push(beside(memory(&name, times, start(rg, hole as u64), &[[PUSHJ, hole, 0, 5], [POP, 0, 0, 0]])));
    }
    for rg in [32, 255] {
        let name = format!("SAVE + UNSAVE, rG {rg}");
        points.push(beside(memory(&name, 20, start(rg, 10), &[[SAVE, 255, 0, 0], [UNSAVE, 0, 0, 255]])));
    }
    points
}
