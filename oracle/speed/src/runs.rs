//! Runs of programs: nanoseconds an instruction. Each program goes round for ever, so a run ends where its grant is spent, and
//! the next one goes on. Where the Rust has all of a program's arms, its fetched instruction stands beside; and the same program in eight tasks, 1,000
//! instructions a turn.

use std::hint::black_box;

use oracle::lent::{Window, Windows};
use oracle::model::Model;
use oracle::opcodes::*;
use oracle::state::{MARKS_MAX, RG, RJ, RL, RO, RS, STACK_START, State};
use oracle::subject::{Subject, Told};
use taken_plain::mmix::MMix;

use crate::report::{Target, print_row};
use crate::{Silent, least};

/// Instructions a call: long enough that judging state and windows is not seen, and a call of 100 beside it.
const GRANT: u64 = 2_000;
const SHORT: u64 = 100;
/// Of eight tasks: the most instructions a turn, one turn each, and bytes of each one's part of B.
const TASKS: u64 = 8;
const TURN: u64 = 1_000;
const PART: u64 = 0x2000;
/// At most so many times one run of the same instructions.
const TASKS_HELD: f64 = 1.5;

/// What a program is held to.
#[derive(Clone, Copy)]
enum Held {
    /// So many times as fast as the Rust's fetched instruction.
    Times(f64),
    /// At most so many times the Rust's bare branch arm.
    Branches(f64),
    Measured,
}

pub struct Program {
    pub name: &'static str,
    tetras: Vec<[u8; 4]>,
    held: Held,
}

impl Program {
    fn in_rust(&self) -> bool {
        self.tetras.iter().all(|tetra| !is_added(tetra[0]))
    }
}

const RD: u8 = oracle::state::RD as u8;
/// A load, a store or an operation with Z in the place of $Z.
const fn immediate(op: u8) -> u8 {
    op + 1
}
const PBNZ: u8 = 0x5A;
const PBNB: u8 = 0x51;

/// Seven of the same, and back.
fn seven(name: &'static str, tetra: impl Fn(u8) -> [u8; 4]) -> Program {
    let tetras = (0..7).map(tetra).chain([[JMPB, 0xFF, 0xFF, 0xF9]]).collect();
    Program { name, tetras, held: Held::Times(8.0) }
}

/// The programs, at address 0. $4 is a limit, $5 an address in A or a dividend, $6 an address in B; $40 is 0.
pub fn programs() -> Vec<Program> {
    let program = |name, held, tetras: &[[u8; 4]]| Program { name, held, tetras: tetras.to_vec() };
    vec![
        seven("SWYM", |_| [SWYM, 0, 0, 0]),
        seven("PBNZ, taken", |_| [PBNZ, 4, 0, 1]),
        seven("BZ, not taken", |_| [BZ, 4, 0, 2]),
        seven("GETA", |_| [GETA, 3, 0, 5]),
        seven("GO", |k| [GOI, 3, 40, 4 * (k + 1)]),
        seven("GET rJ", |_| [GET, 3, 0, RJ as u8]),
        seven("PUT rD", |_| [PUT, RD, 0, 3]),
        program(
            "PUT rG, 32 and 40",
            Held::Times(5.0),
            &[
                [PUTI, RG as u8, 0, 40],
                [PUTI, RG as u8, 0, 32],
                [PUTI, RG as u8, 0, 40],
                [PUTI, RG as u8, 0, 32],
                [JMPB, 0xFF, 0xFF, 0xFC],
            ],
        ),
        program(
            "PUSHJ + POP",
            Held::Times(5.0),
            &[
                [PUSHJ, 2, 0, 5],
                [PUSHJ, 2, 0, 4],
                [PUSHJ, 2, 0, 3],
                [PUSHJ, 2, 0, 2],
                [JMPB, 0xFF, 0xFF, 0xFC],
                [POP, 0, 0, 0],
            ],
        ),
        program(
            "counted loop: ADD, CMP, PBN",
            Held::Branches(3.2),
            &[
                [immediate(NEGU), 1, 0, 0],
                [immediate(ADD), 1, 1, 1],
                [CMP, 3, 1, 4],
                [PBNB, 3, 0xFF, 0xFE],
                [JMPB, 0xFF, 0xFF, 0xFC],
            ],
        ),
        program(
            "copy from A to B: LDO, STO",
            Held::Branches(3.2),
            &[
                [immediate(NEGU), 1, 0, 0],
                [LDO, 2, 5, 1],
                [STO, 2, 6, 1],
                [immediate(ADDU), 1, 1, 8],
                [CMP, 3, 1, 4],
                [PBNB, 3, 0xFF, 0xFC],
                [JMPB, 0xFF, 0xFF, 0xFA],
            ],
        ),
        program(
            "recursion, 20 deep: PUSHJ, POP",
            Held::Measured,
            &[
                [immediate(NEGU), 3, 20, 0],
                [PUSHJ, 2, 0, 2],
                [JMPB, 0xFF, 0xFF, 0xFE],
                [BZ, 0, 0, 6],
                [GET, 1, 0, RJ as u8],
                [immediate(SUBU), 3, 0, 1],
                [PUSHJB, 2, 0xFF, 0xFD],
                [PUT, RJ as u8, 0, 1],
                [immediate(ADDU), 0, 2, 1],
                [POP, 1, 0, 0],
            ],
        ),
        program(
            "table of divisions: DIVU, STO",
            Held::Measured,
            &[
                [immediate(NEGU), 1, 1, 0],
                [DIVU, 2, 5, 1],
                [ADDU8, 7, 1, 6],
                [immediate(STO), 2, 7, 0],
                [immediate(ADDU), 1, 1, 1],
                [CMP, 3, 1, 4],
                [PBNB, 3, 0xFF, 0xFB],
                [JMPB, 0xFF, 0xFF, 0xF9],
            ],
        ),
    ]
}

fn start(program: &Program) -> (State, Windows) {
    let mut state = State::zero();
    (state.special[RG], state.special[RL], state.marks) = (32, 10, MARKS_MAX);
    (state.special[RO], state.special[RS]) = (STACK_START, STACK_START);
    (state.general[4], state.general[5], state.general[6]) = (800, 0x400, STACK_START + 0x400);
    let mut a: Vec<u8> = program.tetras.concat();
    a.resize(0x800, 0x3C);
    let (a, b) = (Window { base: 0, bytes: a }, Window { base: STACK_START, bytes: vec![0; crate::window_len()] });
    (state, Windows { a, b })
}

fn machine(program: &Program) -> MMix {
    let (State { general, special, pc, halt, .. }, windows) = start(program);
    let mut machine = MMix::with_host(Silent);
    machine.place(&general, &special, pc, halt);
    machine.place_loaded((0..9).flat_map(|k| 16 * k..16 * k + 4));
    for (k, tetra) in windows.a.bytes.chunks_exact(4).enumerate() {
        machine.write_tetra(4 * k as u64, u32::from_be_bytes(tetra.try_into().unwrap()));
    }
    machine
}

/// A run leaves what the model says, and the Rust's fetched instructions where it has them.
fn check(subject: &impl Subject, program: &Program) {
    let left = |subject: &dyn Subject| {
        let ((mut state, mut windows), mut done) = (start(program), 0);
        let reply = subject.run_parts(GRANT, (&mut state).into(), windows.lend(), &mut done);
        assert!((reply, done) == (0, GRANT), "{}: reply {reply} after {done}", program.name);
        (state, windows)
    };
    assert!(left(subject) == left(&Model), "{}: differs", program.name);
    if program.in_rust() {
        let (mut machine, (state, _)) = (machine(program), left(subject));
        assert!((0..GRANT).all(|_| machine.execute_instruction()), "{}: the Rust stops", program.name);
        let same = machine.general() == &state.general && machine.special() == &state.special;
        assert!(same && machine.get_pc() == state.pc, "{}: the Rust differs", program.name);
    }
}

/// Nanoseconds an instruction: the Rust's, a run on parts, a short one, a run on an image, and eight tasks.
#[derive(Clone, Copy)]
pub struct Times([f64; 5]);

impl Times {
    pub const NONE: Self = Self([f64::INFINITY; 5]);

    pub fn least(&self, other: &Self) -> Self {
        Self(std::array::from_fn(|k| self.0[k].min(other.0[k])))
    }
}

fn on_parts(subject: &impl Subject, program: &Program, grant: u64) -> f64 {
    let ((mut state, mut windows), mut done) = (start(program), 0);
    let call = least(|| {
        black_box(subject.run_parts(black_box(grant), (&mut state).into(), windows.lend(), &mut done));
    });
    call / grant as f64
}

/// Eight tasks that run the program, each with its stack and data in its own part: images, parts and windows.
fn eight(program: &Program) -> (Vec<u8>, Vec<u64>, Windows) {
    let (state, mut windows) = start(program);
    windows.b.bytes = vec![0; (TASKS * PART) as usize];
    let image = |k: u64| {
        let mut state = state.clone();
        state.special[RO] = STACK_START + k * PART;
        (state.special[RS], state.general[6]) = (state.special[RO], state.special[RO] + 0x400);
        state.image()
    };
    ((0..TASKS).flat_map(image).collect(), (0..TASKS).flat_map(|k| [k * PART, PART]).collect(), windows)
}

fn in_tasks(subject: &impl Subject, program: &Program) -> f64 {
    let (mut images, parts, mut windows) = eight(program);
    let (mut counts, mut refusals) = ([0; 8], [0; 8]);
    let call = least(|| {
        let told = Told { counts: &mut counts, refusals: &mut refusals };
        black_box(subject.tasks(TURN, black_box(TASKS * TURN), &mut images, &parts, windows.lend(), told));
    });
    assert!(counts == [TURN; 8] && refusals == [0; 8], "{}: {counts:?}, {refusals:?}", program.name);
    call / (TASKS * TURN) as f64
}

pub fn measured(subject: &impl Subject, program: &Program) -> Times {
    let fetched = if program.in_rust() {
        let mut machine = machine(program);
        least(|| {
            for _ in 0..SHORT {
                black_box(machine.execute_instruction());
            }
        }) / SHORT as f64
    } else {
        f64::INFINITY
    };
    let ((state, mut windows), mut done) = (start(program), 0);
    let mut image = state.image();
    let on_image = least(|| {
        black_box(subject.run(black_box(GRANT), &mut image, windows.lend(), &mut done));
    });
    let parts = [GRANT, SHORT].map(|grant| on_parts(subject, program, grant));
    Times([fetched, parts[0], parts[1], on_image / GRANT as f64, in_tasks(subject, program)])
}

/// The programs whose name holds a text; each is checked first.
pub fn chosen(subject: &impl Subject, only: &str) -> Vec<Program> {
    let programs: Vec<Program> = programs().into_iter().filter(|program| program.name.contains(only)).collect();
    programs.iter().for_each(|program| check(subject, program));
    programs
}

pub fn print(programs: &[Program], times: &[Times]) {
    println!("| | the Rust, fetched | run | run of 100 | on an image | eight tasks |\n|---|---|---|---|---|---|");
    programs.iter().zip(times).for_each(|(program, Times(row))| print_row(program.name, row));
}

/// What the programs are held to; `branch` is the time of the Rust's bare branch arm.
pub fn targets(programs: &[Program], times: &[Times], branch: f64) -> Vec<Target> {
    let of_program = |(program, Times([fetched, run, .., tasks])): (&Program, &Times)| {
        let held = |at_most, bound, what, ratio| Target { what, of: program.name.to_string(), ratio, bound, at_most };
        let of_run = match program.held {
            Held::Times(bound) => {
                Some(held(false, bound, "the Rust's fetched instruction / instruction of a run", fetched / run))
            }
            Held::Branches(bound) => Some(held(true, bound, "instruction of a run / the Rust's bare BN", run / branch)),
            Held::Measured => None,
        };
        [of_run, Some(held(true, TASKS_HELD, "instruction in eight tasks / in a run", tasks / run))]
            .into_iter()
            .flatten()
    };
    programs.iter().zip(times).flat_map(of_program).collect()
}
