//! How long the Rust's arms take, and the subject's entries beside them: nanoseconds, the least of many repeats.
//!
//!     speed [TEXT [BYTES]]      only the points whose name holds TEXT, and BN; window B of so many bytes and not of 8,192
//!
//! The subject is the proved library with the feature `library`, else the model. Columns: the Rust's arm in place;
//! the same instruction fetched from the Rust's memory and decoded; the subject's step on parts, on a lent state
//! and on an image (there exceptions too). A point of two instructions has the sum of both. Behind the times stand
//! the ratios by target, and whether it is met. It is printed as docs/SPEED.md has it. The Rust has no arm for loads, stores and arithmetic: they are
//! checked by the model, and set against a branch; a subject that has no such arm either has no times there. Arithmetic has
//! in the Rust's column the operation alone, by Rust's own integers; a division there is one of 128 bits by 64, without
//! the remainder. The window is lent as B; A is empty, or, where the name says so, the bench program's. Finding a field has a
//! line of its own, and so have sets of 4 and of 32 registers, on parts and on an image. Runs have a table of their own (runs.rs).

mod points;
mod report;
mod runs;

use std::hint::black_box;
use std::time::Instant;

use oracle::case::{self, Instruction};
use oracle::lent::{Lent, Window, Windows};
use oracle::model::Model;
use oracle::opcodes::{ADD, CMP, DIV, DIVU, MUL, MULU, PUT, PUTI, RESUME, SL, SRU, TRAP};
use oracle::state::{RA, RD, RG, RL, RM, STACK_START, State};
use oracle::subject::{Aim, Subject, chosen};
use points::{BRANCH, OPERATION, Point, Work, points};
use report::Row;
use taken_plain::mmix::{Host, MMix};
use taken_plain::mmixal::Opcode;

/// The whole table is measured so often, each time with so many repeats: a slow spell meets all columns alike.
const PASSES: usize = 20;
const REPEATS: usize = 80;
const CODE_START: u64 = 0x1000;

/// Bytes of window B.
fn window_len() -> usize {
    std::env::args().nth(2).map_or(8192, |bytes| bytes.parse().expect("a number of bytes"))
}

struct Silent;

impl Host for Silent {
    fn write(&mut self, _fd: u8, _bytes: &[u8]) -> std::io::Result<()> {
        Ok(())
    }

    fn now_micros(&mut self) -> u64 {
        0
    }

    fn diagnostic(&mut self, _message: &str) {}
}

/// The least time of one call, in nanoseconds.
fn least(mut f: impl FnMut()) -> f64 {
    const TRIAL: u64 = 32;
    (0..TRIAL).for_each(|_| f());
    let began = Instant::now();
    (0..TRIAL).for_each(|_| f());
    let calls = (50_000 * TRIAL / began.elapsed().as_nanos().max(1) as u64).clamp(1, 10_000);
    let times = (0..REPEATS).map(|_| {
        let began = Instant::now();
        for _ in 0..calls {
            f();
        }
        began.elapsed().as_nanos() as f64 / calls as f64
    });
    times.fold(f64::INFINITY, f64::min)
}

/// The Rust's machine at a point, its instructions in memory at `CODE_START`.
fn machine(point: &Point) -> MMix {
    let mut machine = MMix::with_host(Silent);
    let State { general, special, pc, halt, .. } = &point.state;
    machine.place(general, special, *pc, *halt);
    machine.place_loaded((0..9).flat_map(|k| 16 * k..16 * k + 4));
    if let Work::Steps(code) = &point.work {
        for (k, i) in code.iter().enumerate() {
            machine.write_tetra(CODE_START + 4 * k as u64, u32::from_be_bytes([i.op, i.x, i.y, i.z]));
        }
    }
    machine
}

fn opcode(i: &Instruction) -> Opcode {
    Opcode::try_from(i.op).expect("every byte names an opcode")
}

/// The arm of a decoded instruction.
#[inline]
fn enter(machine: &mut MMix, opcode: Opcode, i: &Instruction) -> bool {
    let Instruction { op, x, y, z } = *i;
    let system = matches!(op, TRAP | PUT | PUTI | RESUME..);
    if system { machine.enter_system(opcode, op, x, y, z) } else { machine.enter_control(opcode, op, x, y, z) }
}

fn rust_arm(point: &Point) -> f64 {
    let mut machine = machine(point);
    match &point.work {
        Work::Steps(code) => {
            let decoded: Vec<(Opcode, Instruction)> = code.iter().map(|i| (opcode(i), *i)).collect();
            least(|| {
                for (opcode, i) in &decoded {
                    black_box(enter(&mut machine, *opcode, i));
                }
            })
        }
        Work::Exceptions(flags) => least(|| {
            machine.place_ra(point.state.special[oracle::state::RA]);
            black_box(machine.enter_exceptions(black_box(*flags), 0x20, 1, 2, 3, 7, 9));
        }),
    }
}

fn rust_fetched(point: &Point) -> f64 {
    let Work::Steps(code) = &point.work else { return Row::NO_TIME };
    let mut machine = machine(point);
    least(|| {
        for k in 0..code.len() as u64 {
            machine.set_pc(black_box(CODE_START + 4 * k));
            black_box(machine.execute_instruction());
        }
    })
}

/// A point's windows: A at 0, B in the stack.
fn windows(point: &Point, byte: u8) -> Windows {
    let window = |base: u64, len: usize| Window { base, bytes: vec![byte; len] };
    Windows { a: window(0, point.a), b: window(STACK_START, window_len()) }
}

/// A point's steps, each by `step`, on a state and windows that stay from call to call.
fn on_state(point: &Point, step: impl Fn(Instruction, &mut State, Lent) -> u64) -> f64 {
    let Work::Steps(code) = &point.work else { return Row::NO_TIME };
    let (mut state, mut windows) = (point.state.clone(), windows(point, 0));
    least(|| {
        for i in code {
            black_box(step(*i, &mut state, windows.lend()));
        }
    })
}

/// A point's steps, or its exception, on an image.
fn on_image(subject: &impl Subject, point: &Point) -> f64 {
    let (mut image, mut windows) = (point.state.image(), windows(point, 0));
    match &point.work {
        Work::Steps(code) => least(|| {
            for i in code {
                black_box(subject.step(*i, &mut image, windows.lend()));
            }
        }),
        Work::Exceptions(flags) => {
            let of = Instruction { op: 0x20, x: 1, y: 2, z: 3 };
            least(|| {
                black_box(subject.exceptions(black_box(*flags), of, 7, 9, &mut image));
            })
        }
    }
}

/// Whether the subject does a point's steps.
fn does(subject: &impl Subject, point: &Point) -> bool {
    let Work::Steps(code) = &point.work else { return true };
    let (mut state, mut windows) = (point.state.clone(), windows(point, 0));
    code.iter().all(|i| subject.step_lent(*i, &mut state, windows.lend()) == 0)
}

/// The same operation by Rust's own integers.
fn rust_operation(point: &Point) -> f64 {
    fn timed(state: &State, f: impl Fn(u64, u64, u64) -> u64) -> f64 {
        let [_, y, z] = OPERATION.map(|r| state.general[r as usize]);
        let operands = [state.special[RD], y, z];
        least(|| {
            let [rd, y, z] = black_box(operands);
            black_box(f(rd, y, z));
        })
    }
    let (Work::Steps(code), state) = (&point.work, &point.state) else { return Row::NO_TIME };
    match code[0].op {
        MUL => timed(state, |_, y, z| y.wrapping_mul(z)),
        MULU => timed(state, |_, y, z| {
            let product = y as u128 * z as u128;
            black_box((product >> 64) as u64);
            product as u64
        }),
        ADD => timed(state, |_, y, z| y.wrapping_add(z)),
        CMP => timed(state, |_, y, z| (y as i64).cmp(&(z as i64)) as u64),
        SL => timed(state, |_, y, z| if z < 64 { y << z } else { 0 }),
        SRU => timed(state, |_, y, z| if z < 64 { y >> z } else { 0 }),
        DIV | DIVU => timed(state, |rd, y, z| (((rd as u128) << 64 | y as u128) / z as u128) as u64),
        _ => Row::NO_TIME,
    }
}

/// A load, store or operation that the subject does leaves what the model says.
fn check_by_model(subject: &impl Subject, point: &Point) {
    let left = |subject: &dyn Subject| {
        let (mut state, mut windows) = (point.state.clone(), windows(point, 0x9C));
        let Work::Steps(code) = &point.work else { unreachable!("a step") };
        let replies: Vec<u64> = code.iter().map(|i| subject.step_lent(*i, &mut state, windows.lend())).collect();
        (replies, state, windows)
    };
    assert!(!does(subject, point) || left(subject) == left(&Model), "{}: differs", point.name);
}

/// After one round the Rust and the subject agree, and every instruction was done.
fn check(subject: &impl Subject, point: &Point) {
    if !point.kind.in_rust() {
        return check_by_model(subject, point);
    }
    let mut machine = machine(point);
    let (mut state, mut windows) = (point.state.clone(), windows(point, 0));
    let Work::Steps(code) = &point.work else { return };
    for i in code {
        let goes_on = enter(&mut machine, opcode(i), i);
        let reply = subject.step_lent(*i, &mut state, windows.lend());
        assert!(goes_on && reply == 0, "{}: {i:?} is refused", point.name);
    }
    assert!(machine.general() == &state.general && machine.special() == &state.special, "{}: differs", point.name);
}

/// A point's row, measured once.
fn measured(subject: &impl Subject, point: &Point) -> Row {
    if !does(subject, point) {
        return Row::NONE;
    }
    let in_rust = point.kind.in_rust();
    Row {
        arm: if in_rust { rust_arm(point) } else { rust_operation(point) },
        fetched: if in_rust { rust_fetched(point) } else { Row::NO_TIME },
        parts: on_state(point, |i, state, lent| subject.step_parts(i, state.into(), lent)),
        lent: on_state(point, |i, state, lent| subject.step_lent(i, state, lent)),
        image: on_image(subject, point),
    }
}

/// The time of copying an image, measured once.
fn copied() -> f64 {
    let (from, mut to) = (State::zero().image(), State::zero().image());
    least(|| black_box(&mut to).copy_from_slice(black_box(&from)))
}

/// The times of finding a jump's field ahead, one behind and none, measured once.
fn found(subject: &impl Subject) -> [f64; 3] {
    let (mut backward, mut field) = (0, 0);
    [0x40, 0x40u64.wrapping_neg(), 1 << 63].map(|offset| {
        let (from, to) = (CODE_START, CODE_START.wrapping_add(offset));
        least(|| {
            let aim = Aim { backward: &mut backward, field: &mut field };
            black_box(subject.field(case::Kind::Jump, black_box(from), black_box(to), aim));
        })
    })
}

/// The times of a set of 4 and one of 32 pairs, in place and on an image, measured once: rL, rG, rA and rM, again and again.
fn put(subject: &impl Subject) -> [f64; 4] {
    let mut state = State::zero();
    state.special[RG] = 48;
    let mut image = state.image();
    let numbers = |count: usize| -> Vec<u64> {
        let study = [[RL as u64, 0], [RG as u64, 48], [RA as u64, 0x4000], [RM as u64, 0xFF]];
        study.iter().cycle().take(count).flatten().copied().collect()
    };
    let bytes = |count: usize| -> Vec<u8> { numbers(count).iter().flat_map(|v| v.to_be_bytes()).collect() };
    let mut place = 0;
    let mut parts = |count| {
        let pairs = numbers(count);
        least(|| assert_eq!(black_box(subject.put_set_parts((&mut state).into(), black_box(&pairs), &mut place)), 0))
    };
    let [four, most] = [parts(4), parts(32)];
    let mut on_image = |count| {
        let pairs = bytes(count);
        least(|| assert_eq!(black_box(subject.put_set(&mut image, black_box(&pairs), &mut place)), 0))
    };
    [four, most, on_image(4), on_image(32)]
}

fn main() {
    let only = std::env::args().nth(1).unwrap_or_default();
    let subject = chosen();
    let points: Vec<Point> = points().into_iter().filter(|p| p.name.contains(&only) || p.name == BRANCH).collect();
    points.iter().for_each(|point| check(&subject, point));

    let (mut copy, mut fields, mut sets) = (f64::INFINITY, [f64::INFINITY; 3], [f64::INFINITY; 4]);
    let mut rows = vec![Row::NONE; points.len()];
    let programs = runs::chosen(&subject, &only);
    let mut times = vec![runs::Times::NONE; programs.len()];
    for _ in 0..PASSES {
        copy = copy.min(copied());
        fields.iter_mut().zip(found(&subject)).for_each(|(least, time)| *least = least.min(time));
        sets.iter_mut().zip(put(&subject)).for_each(|(least, time)| *least = least.min(time));
        for (row, point) in rows.iter_mut().zip(&points) {
            *row = row.least(&measured(&subject, point));
        }
        for (least, program) in times.iter_mut().zip(&programs) {
            *least = least.least(&runs::measured(&subject, program));
        }
    }
    println!(
        "Nanoseconds, the least of {} repeats; subject: {}; a copy of an image {copy:.1}.\n",
        PASSES * REPEATS,
        subject.name()
    );
    report::print(&points, &rows);
    let [ahead, behind, none] = fields;
    println!("\nA jump's field: ahead {ahead:.1}, behind {behind:.1}, out of reach {none:.1}.");
    let [four, most, four_image, most_image] = sets;
    println!("A set of 4 pairs {four:.1}, of 32 {most:.1}; on an image {four_image:.1} and {most_image:.1}.");
    let mut targets = report::targets(&points, &rows, copy);
    if !programs.is_empty() {
        println!("\nRuns, nanoseconds an instruction:\n");
        runs::print(&programs, &times);
        let branch = points.iter().position(|point| point.name == BRANCH).map_or(f64::NAN, |k| rows[k].arm);
        targets.extend(runs::targets(&programs, &times, branch));
    }
    println!("\nTargets, of this run:\n");
    report::print_targets(&targets);
}
