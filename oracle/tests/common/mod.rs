//! Cases that go on from step to step, each step on the Rust, the library where it is linked, and the model.

use oracle::case::{Call, Case, Instruction};
use oracle::compare::compare;
use oracle::lent::{Window, Windows};
use oracle::reference::{Answer, Reference};
use oracle::state::{IMAGE_LEN, MARKS_MAX, STACK_START, State};
use oracle::subject::{Subject, chosen, subjects};

/// The fresh state with all vectors loaded; A is 2,048 bytes at 0, B 2,048 at the stack start.
pub fn start() -> Case {
    let mut image = vec![0; IMAGE_LEN];
    assert_eq!(chosen().initialize(&mut image), 0);
    let mut state = State::of_image(&image);
    state.marks = MARKS_MAX;
    let window = |base: u64| Window { base, bytes: vec![0; 2048] };
    Case::new(Call::Initialize, state, Windows { a: window(0), b: window(STACK_START) })
}

/// Do one step on all sides; the case goes on from what it left.
pub fn step(case: &mut Case, op: u8, x: u8, y: u8, z: u8) -> Answer {
    case.call = Call::Step(Instruction { op, x, y, z });
    run(case)
}

pub fn run(case: &mut Case) -> Answer {
    let answer = compare(&mut Reference::new(), &subjects(), case).expect("all sides agree");
    case.state = answer.state.clone();
    case.windows = answer.windows.clone();
    answer
}

pub fn special(case: &Case, register: usize) -> u64 {
    case.state.special[register]
}
