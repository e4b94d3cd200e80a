//! Figures for whole-number arithmetic, on the library where it is linked and on the model; the Rust has no such arms. The
//! rules are Fascicle 1's, section 1.3.1': a quotient is rounded down, so that a remainder has the divisor's sign; DIVU divides
//! the octabytes of rD and $Y; a shift is by any count; $X is set before a trip is taken.

use crate::common::{special, start, step};
use oracle::case::Case;
use oracle::opcodes::*;
use oracle::state::*;

const LEAST: u64 = 1 << 63;
const MOST: u64 = LEAST - 1;
const ALL: u64 = u64::MAX;
const D: u64 = 0x80;
const V: u64 = 0x40;

fn negative(v: u64) -> u64 {
    v.wrapping_neg()
}

/// $2 and $3 are the operands, rA is 0x10001 with D and V disabled; rD, rH and rR are 4, 5 and 6.
fn with(y: u64, z: u64) -> Case {
    let mut case = start();
    case.state.general[..4].copy_from_slice(&[0, 0x1111, y, z]);
    (case.state.special[RL], case.state.special[RA], case.state.pc) = (4, 0x1_0001, 0x1000);
    (case.state.special[RD], case.state.special[RH], case.state.special[RR]) = (4, 5, 6);
    (case.state.special[RJ], case.state.general[255]) = (0x2222, 0x5555);
    case
}

/// What `op $1,$2,$3` leaves in $1, in rH and rR, and the flag that it adds to rA; nothing else is changed but PC.
fn left(op: u8, y: u64, z: u64) -> (u64, u64, u64, u64) {
    after(with(y, z), op)
}

fn after(mut case: Case, op: u8) -> (u64, u64, u64, u64) {
    let mut rest = case.state.clone();
    assert_eq!(step(&mut case, op, 1, 2, 3).reply, 0);
    let (x, flag) = (case.state.general[1], special(&case, RA) ^ 0x1_0001);
    (rest.general[1], rest.special[RA], rest.pc) = (x, 0x1_0001 | flag, 0x1004);
    (rest.special[RH], rest.special[RR]) = (special(&case, RH), special(&case, RR));
    assert_eq!(case.state.difference(&rest), None);
    (x, special(&case, RH), special(&case, RR), flag)
}

/// Operations that leave rH and rR: $1 and the flag.
fn alone(op: u8, y: u64, z: u64) -> (u64, u64) {
    let (x, rh, rr, flag) = left(op, y, z);
    assert_eq!((rh, rr), (5, 6));
    (x, flag)
}

/// −7 by 2 is −4, remainder 1; 7 by −2 is −4, remainder −1.
#[test]
fn div_rounds_down() {
    let divided = |y, z| left(DIV, y, z);
    assert_eq!(divided(7, 2), (3, 5, 1, 0));
    assert_eq!(divided(negative(7), 2), (negative(4), 5, 1, 0));
    assert_eq!(divided(7, negative(2)), (negative(4), 5, negative(1), 0));
    assert_eq!(divided(negative(7), negative(2)), (3, 5, negative(1), 0));
    assert_eq!(divided(negative(8), 2), (negative(4), 5, 0, 0));
    assert_eq!(divided(LEAST, 1), (LEAST, 5, 0, 0));
}

/// By zero, and the most negative number by −1.
#[test]
fn div_at_its_limits() {
    for y in [0, 7, LEAST, ALL] {
        assert_eq!(left(DIV, y, 0), (0, 5, y, D));
    }
    assert_eq!(left(DIV, LEAST, ALL), (LEAST, 5, 0, V));
    assert_eq!(left(DIV, MOST, ALL), (LEAST + 1, 5, 0, 0));
}

#[test]
fn divu_divides_two_octabytes() {
    let divided = |rd: u64, y: u64, z: u64| {
        let mut case = with(y, z);
        case.state.special[RD] = rd;
        after(case, DIVU)
    };
    assert_eq!(divided(0, ALL, 2), (MOST, 5, 1, 0));
    assert_eq!(divided(1, 0, 3), (0x5555_5555_5555_5555, 5, 1, 0));
    for z in [1, 5, LEAST, ALL] {
        // z × 2^64 − 1, the largest dividend whose quotient is an octabyte
        assert_eq!(divided(z - 1, ALL, z), (ALL, 5, z - 1, 0));
        assert_eq!(divided(z, 77, z), (z, 5, 77, 0));
    }
    assert_eq!(divided(9, 77, 0), (9, 5, 77, 0));
    assert_eq!(divided(0, 77, 0), (0, 5, 77, 0));
}

#[test]
fn products() {
    assert_eq!(alone(MUL, LEAST, ALL), (LEAST, V));
    assert_eq!(alone(MUL, LEAST, 1), (LEAST, 0));
    assert_eq!(alone(MUL, 1 << 32, 1 << 31), (LEAST, V));
    assert_eq!(alone(MUL, negative(1 << 32), 1 << 31), (LEAST, 0));
    assert_eq!(alone(MUL, ALL, ALL), (1, 0));
    assert_eq!(left(MULU, ALL, ALL), (1, ALL - 1, 6, 0));
    assert_eq!(left(MULU, 1 << 32, 1 << 32), (0, 1, 6, 0));
    assert_eq!(left(MULU, 3, 5), (15, 0, 6, 0));
}

#[test]
fn sums_and_differences() {
    assert_eq!(alone(ADD, MOST, 1), (LEAST, V));
    assert_eq!(alone(ADD, LEAST, ALL), (MOST, V));
    assert_eq!(alone(ADD, ALL, 1), (0, 0));
    assert_eq!(alone(ADDU, MOST, 1), (LEAST, 0));
    assert_eq!(alone(ADDU, ALL, 1), (0, 0));
    assert_eq!(alone(SUB, LEAST, 1), (MOST, V));
    assert_eq!(alone(SUB, 0, LEAST), (LEAST, V));
    assert_eq!(alone(SUB, ALL, LEAST), (MOST, 0));
    assert_eq!(alone(SUB, 0, 1), (ALL, 0));
    assert_eq!(alone(SUBU, LEAST, 1), (MOST, 0));
    assert_eq!(alone(SUBU, 0, 1), (ALL, 0));
    assert_eq!([ADDU2, ADDU4, ADDU8, ADDU16].map(|op| alone(op, 3, 5).0), [11, 17, 29, 53]);
    assert_eq!([ADDU2, ADDU4, ADDU8, ADDU16].map(|op| alone(op, LEAST, 5)), [(5, 0); 4]);
    assert_eq!(alone(ADDU4, 9, 9), (45, 0));
}

#[test]
fn comparisons() {
    for (y, z, signed, unsigned) in
        [(1, ALL, 1, ALL), (LEAST, MOST, ALL, 1), (3, 3, 0, 0), (2, 3, ALL, ALL), (3, 2, 1, 1)]
    {
        assert_eq!(alone(CMP, y, z), (signed, 0));
        assert_eq!(alone(CMPU, y, z), (unsigned, 0));
    }
}

/// Y is a constant: $2 does not count.
#[test]
fn negatives() {
    assert_eq!(alone(NEG, 99, 5), (negative(3), 0));
    assert_eq!(alone(NEG, 99, LEAST), (LEAST + 2, V));
    assert_eq!(alone(NEG, 99, LEAST + 2), (LEAST, V));
    assert_eq!(alone(NEG, 99, LEAST + 3), (MOST, 0));
    assert_eq!(alone(NEGU, 99, LEAST), (LEAST + 2, 0));
    assert_eq!(alone(NEG + 1, 99, 99), (negative(1), 0));
}

/// 1 by 63 overflows, −1 by 63 does not; 0 never; a count of 2^63 is larger than 63.
#[test]
fn shifts() {
    assert_eq!(alone(SL, 1, 63), (LEAST, V));
    assert_eq!(alone(SL, ALL, 63), (LEAST, 0));
    assert_eq!(alone(SL, 1, 62), (LEAST / 2, 0));
    assert_eq!(alone(SL, 5, 62), (LEAST / 2, V));
    assert_eq!(alone(SL, 7, 0), (7, 0));
    for count in [64, 65, 1 << 32, LEAST, ALL] {
        assert_eq!([0, 1, ALL, LEAST].map(|y| alone(SL, y, count)), [(0, 0), (0, V), (0, V), (0, V)]);
        assert_eq!([1, ALL].map(|y| alone(SLU, y, count)), [(0, 0); 2]);
        assert_eq!([MOST, LEAST, ALL].map(|y| alone(SR, y, count)), [(0, 0), (ALL, 0), (ALL, 0)]);
        assert_eq!([LEAST, ALL].map(|y| alone(SRU, y, count)), [(0, 0); 2]);
    }
    assert_eq!([SLU, SR, SRU].map(|op| alone(op, LEAST + 3, 63)), [(LEAST, 0), (ALL, 0), (1, 0)]);
    assert_eq!(
        [SLU, SR, SRU].map(|op| alone(op, LEAST + 3, 1)),
        [(6, 0), (LEAST + LEAST / 2 + 1, 0), (LEAST / 2 + 1, 0)]
    );
}

/// The state that a trip leaves: rX has the instruction, rY and rZ have the operands of before.
fn tripped(case: &Case, i: u64, y: u64, z: u64) -> State {
    let mut state = case.state.clone();
    (state.special[RB], state.general[255]) = (0x5555, 0x2222);
    (state.special[RW], state.special[RX]) = (0x1004, LEAST + i);
    (state.special[RY], state.special[RZ]) = (y, z);
    state
}

/// V and D enabled: the trip to 32 or 16, or 19 where its vector is not loaded. $1 and rR are written all the same.
#[test]
fn an_enabled_flag_trips() {
    for (marks, reply, halt) in [(MARKS_MAX, 0, 0), (MARKS_MAX & !6, 19, 1)] {
        let enabled = |y: u64, z: u64| {
            let mut case = with(y, z);
            (case.state.special[RA], case.state.marks) = (0xC001, marks);
            case
        };
        let left = |vector: u64| if reply == 0 { vector } else { 0x1000 };

        let mut case = enabled(LEAST, ALL);
        let mut expected = tripped(&case, 0x1C01_0203, LEAST, ALL);
        assert_eq!(step(&mut case, DIV, 1, 2, 3).reply, reply);
        (expected.general[1], expected.special[RR], expected.pc, expected.halt) = (LEAST, 0, left(32), halt);
        assert_eq!(case.state.difference(&expected), None);

        let mut case = enabled(7, 2);
        let mut expected = tripped(&case, 0x1D01_0200, 7, 0);
        assert_eq!(step(&mut case, DIV + 1, 1, 2, 0).reply, reply);
        (expected.general[1], expected.special[RR], expected.pc, expected.halt) = (0, 7, left(16), halt);
        assert_eq!(case.state.difference(&expected), None);

        let mut case = enabled(7, LEAST);
        let mut expected = tripped(&case, 0x3401_0903, 9, LEAST);
        assert_eq!(step(&mut case, NEG, 1, 9, 3).reply, reply);
        (expected.general[1], expected.pc, expected.halt) = (LEAST + 9, left(32), halt);
        assert_eq!(case.state.difference(&expected), None);
    }
}

/// $255 is written before the trip, which has the new value in rB; X may be Y or Z, and marginal.
#[test]
fn x_is_written_before_the_trip() {
    let mut case = with(MOST, 1);
    case.state.special[RA] = 0x4000;
    assert_eq!(step(&mut case, ADD, 255, 2, 3).reply, 0);
    assert_eq!((special(&case, RB), case.state.general[255], case.state.pc), (LEAST, 0x2222, 32));

    let mut case = with(MOST, 1);
    case.state.special[RA] = 0x4000;
    assert_eq!(step(&mut case, ADD, 2, 2, 3).reply, 0);
    assert_eq!((case.state.general[2], special(&case, RY), special(&case, RZ)), (LEAST, MOST, 1));

    let mut case = with(3, 1);
    (case.state.special[RA], case.state.marks) = (0x4000, 0);
    (case.state.general[8], case.state.general[9]) = (77, MOST);
    assert_eq!(step(&mut case, ADD, 9, 3, 9).reply, 19);
    assert_eq!((special(&case, RL), &case.state.general[8..10]), (10, &[0, LEAST][..]));
    assert_eq!((special(&case, RY), special(&case, RZ), case.state.pc), (1, MOST, 0x1000));
}
