//! Runs by hand, on the Rust and on the subjects: a loop with a call and a return under each grant, PC with low bits, where a run
//! stops, what a claim changes and what a refusal gives back; the largest grant; a run in two parts is the run.

use crate::common::{run, special, start, step};
use oracle::case::{Call, Case};
use oracle::lent::{Window, Windows};
use oracle::model::Model;
use oracle::opcodes::*;
use oracle::programs;
use oracle::random::Random;
use oracle::reference::{Answer, GRANT_MOST};
use oracle::state::*;
use oracle::subject::{Subject, subjects};

/// Tetras at 0 in A, octabytes at the stack start in B.
fn loaded(tetras: &[u32], octabytes: &[u64]) -> Case {
    let a = tetras.iter().flat_map(|tetra| tetra.to_be_bytes()).collect();
    let b = octabytes.iter().flat_map(|octabyte| octabyte.to_be_bytes()).collect();
    let windows = Windows { a: Window { base: 0, bytes: a }, b: Window { base: STACK_START, bytes: b } };
    Case { windows, ..start() }
}

/// Go on for so many: reply and count.
fn go(case: &mut Case, grant: u64) -> (u64, u64) {
    case.call = Call::Run { grant };
    let answer = run(case);
    (answer.reply, answer.done)
}

/// $0 counts from 2 down to 0; $1 is what the routine at 14 gives, 5.
const LOOP: [u32; 8] = [
    0x2300_2002, // 0  ADDU $0,$32,2
    0xF201_0004, // 4  PUSHJ $1,#14
    0x2700_0001, // 8  SUBU $0,$0,1
    0x5B00_FFFE, // C  PBNZ $0,#4
    0x0000_0000, // 10 TRAP 0,0,0
    0x2300_2005, // 14 ADDU $0,$32,5
    0xF801_0000, // 18 POP 1,0
    0x0000_0000,
];

#[test]
fn a_loop_a_call_and_a_return() {
    for (grant, reply, done, pc) in [(0, 0, 0, 0), (1, 0, 1, 4), (10, 0, 10, 0xC), (11, 0, 11, 0x10), (12, 4, 11, 0x10)]
    {
        let mut case = loaded(&LOOP, &[0, 0]);
        assert_eq!(go(&mut case, grant), (reply, done));
        assert_eq!((case.state.pc, case.state.halt), (pc, 0));
        if grant >= 10 {
            assert_eq!((case.state.general[0], case.state.general[1], special(&case, RL)), (0, 5, 2));
            assert_eq!((special(&case, RJ), special(&case, RO)), (8, STACK_START));
            assert_eq!(case.windows.b.bytes, [0, 0, 0, 0, 0, 0, 0, 1, 0, 0, 0, 0, 0, 0, 0, 1]);
        }
    }
    let mut case = loaded(&LOOP, &[0, 0]);
    assert_eq!([go(&mut case, 10), go(&mut case, 1), go(&mut case, 1)], [(0, 10), (0, 1), (4, 0)]);
}

#[test]
fn low_bits_are_dropped_for_the_fetch_alone() {
    let mut case = loaded(&LOOP, &[0, 0]);
    case.state.pc = 3;
    assert_eq!(go(&mut case, 2), (0, 2));
    assert_eq!((special(&case, RJ), case.state.pc), (0xB, 0x17));
    let mut case = loaded(&[0, 0xFF00_0000], &[]);
    case.state.pc = 6;
    assert_eq!(go(&mut case, 1), (0, 1));
    assert_eq!((special(&case, RW), case.state.pc), (10, 0));
}

/// Marginal $3 is 7.
fn held(tetras: [u32; 2]) -> Case {
    let mut case = loaded(&tetras, &[]);
    case.state.general[3] = 7;
    case
}

#[test]
fn where_a_run_stops() {
    let swym = 0xFD00_0000;
    for (tetras, reply, done) in [([0, 0], 4, 0), ([swym, 0], 4, 1), ([swym, swym], 24, 2)] {
        let mut case = held(tetras);
        let before = case.state.clone();
        assert_eq!(go(&mut case, 3), (reply, done));
        assert_eq!(case.state, State { pc: 4 * done, ..before });
    }
    let mut case = held([swym, swym]);
    case.state.pc = 8;
    assert_eq!(go(&mut case, 1), (24, 0));
}

/// An opcode with no arm, GET $5,32, LDO $5,$32,8, SAVE $5, POP where rO can hold no frame.
#[test]
fn a_refusal_takes_the_claim_back() {
    for (tetra, reply) in [(0x0105_0000, 3), (0xFE05_0020, 5), (0x8D05_2008, 6), (0xFA05_0000, 13), (0xF805_0000, 12)] {
        let mut case = held([tetra, 0]);
        if reply == 12 {
            case.state.special[RO] = STACK_START + 1;
        }
        let before = case.state.clone();
        assert_eq!(go(&mut case, 1), (reply, 0));
        assert_eq!(case.state, State { halt: (reply > 6) as u64, ..before });
    }
}

#[test]
fn what_19_and_20_leave() {
    // DIV $5,$32,0 with D enabled and no vector
    let mut case = held([0x1D05_2000, 0]);
    (case.state.special[RA], case.state.marks) = (0x8000, 0);
    assert_eq!(go(&mut case, 1), (19, 0));
    assert_eq!((special(&case, RL), case.state.general[3], case.state.halt), (6, 0, 1));
    // TRAP 1,0,3
    let mut case = held([0x0001_0003, 0]);
    assert_eq!(go(&mut case, 1), (20, 0));
    assert_eq!((special(&case, RL), special(&case, RZZ), case.state.general[3]), (0, 7, 7));
}

#[test]
fn what_refuses_the_whole() {
    let whole = |case: &mut Case, grant: u64| {
        let before = case.clone();
        let (reply, done) = go(case, grant);
        assert_eq!((done, &case.state, &case.windows), (0, &before.state, &before.windows));
        reply
    };
    assert_eq!(whole(&mut held([0xFD00_0000, 0]), GRANT_MOST + 1), 25);
    let mut case = held([0, 0]);
    case.windows.b = case.windows.a.clone();
    assert_eq!(whole(&mut case, GRANT_MOST + 1), 22);
    assert_eq!(whole(&mut case, 0), 22);
    case.windows.a.bytes.pop();
    assert_eq!(whole(&mut case, GRANT_MOST + 1), 2);
    case.state.special[RG] = 31;
    assert_eq!(whole(&mut case, GRANT_MOST + 1), 1);
}

/// The claim comes before operands are read, a step's after: GET $5,rL; GO $5,$3,0; ADDU $5,$3,$3; LDO $5,$3,0; PUSHJ $4.
#[test]
fn a_claim_comes_before_the_operands() {
    for (tetra, fetched, stepped) in [
        (0xFE05_0014u32, 6, 0),
        (0x9F05_0300, 4, 4),
        (0x2205_0303, 0, 14),
        (0x8D05_0300, 0x8D05_0300_0000_0000, 0x8D05_0300_0000_0000),
    ] {
        let mut case = held([tetra, 0]);
        assert_eq!(go(&mut case, 1), (0, 1));
        assert_eq!((case.state.general[5], case.state.general[3], special(&case, RL)), (fetched, 0, 6));
        let [op, x, y, z] = tetra.to_be_bytes();
        let mut case = held([tetra, 0]);
        assert_eq!(step(&mut case, op, x, y, z).reply, 0);
        assert_eq!(case.state.general[5], stepped);
    }
    let call = |case: &mut Case| case.windows.b.bytes.chunks_exact(8).map(octabyte).collect::<Vec<u64>>();
    let with_room = || Case { windows: loaded(&[0xF204_0001, 0], &[1; 5]).windows, ..held([0, 0]) };
    let mut case = with_room();
    assert_eq!(go(&mut case, 1), (0, 1));
    assert_eq!(call(&mut case), [0, 0, 0, 0, 4]);
    let mut case = with_room();
    assert_eq!(step(&mut case, PUSHJ, 4, 0, 1).reply, 0);
    assert_eq!(call(&mut case), [0, 0, 0, 7, 4]);
}

/// SWYM and back, 1,000,000 of them.
#[test]
fn the_largest_grant() {
    let case = loaded(&[0xFD00_0000, 0xF1FF_FFFF], &[]);
    for subject in subjects() {
        let (mut state, mut windows, mut done) = (case.state.clone(), case.windows.clone(), 7);
        assert_eq!(subject.run_parts(GRANT_MOST, (&mut state).into(), windows.lend(), &mut done), 0);
        assert_eq!((done, &state), (GRANT_MOST, &case.state));
        assert_eq!(subject.run_parts(GRANT_MOST + 1, (&mut state).into(), windows.lend(), &mut done), 25);
        assert_eq!((done, &state), (0, &case.state));
    }
}

/// A larger grant goes on from where the smaller one ended.
#[test]
fn a_run_in_two_parts() {
    let random = &mut Random::new(6, 1);
    let mut gone_on = 0;
    for _ in 0..2000 {
        let case = programs::single(random);
        let Call::Run { grant } = case.call else { unreachable!("a run") };
        let Answer { reply, done, state, windows, .. } = run(&mut case.clone());
        let first = random.below(done + 1);
        let (mut after, mut left) = (case.state.clone(), case.windows.clone());
        let mut parts = |grant: u64| {
            let mut done = 0;
            (Model.run_parts(grant, (&mut after).into(), left.lend(), &mut done), done)
        };
        if reply != 1 && (1..=GRANT_MOST).contains(&grant) {
            let (one, two) = (parts(first), parts(grant - first));
            if !matches!(reply, 2 | 22) {
                assert_eq!((one, two), ((0, first), (reply, done - first)), "{case}");
                gone_on += (first > 0 && two.1 > 0) as u64;
            }
            assert_eq!((after, left), (state, windows), "{case}");
        }
    }
    assert!(gone_on > 300, "{gone_on} went on");
}
