//! The bench points P1 to P14 of document 01, and points of two windows, on the Rust and on the subjects.

use crate::common::{run, special, start, step};
use oracle::case::{Call, Case, Instruction};
use oracle::compare::compare;
use oracle::lent::{Window, Windows};
use oracle::opcodes::{BNB, LDO, POP, PUSHJ, PUT, SAVE, STO, SWYM, UNSAVE};
use oracle::reference::Reference;
use oracle::state::*;
use oracle::subject::{Found, subjects};

/// `(set (reg 0) 7)`, `(set (reg 1) 9)`, PUSHJ $1.
fn called() -> Case {
    let mut case = start();
    (case.state.general[0], case.state.general[1], case.state.special[RL]) = (7, 9, 2);
    assert_eq!(step(&mut case, PUSHJ, 1, 0, 5).reply, 0);
    assert_eq!((case.state.pc, special(&case, RG), special(&case, RL)), (0x14, 32, 0));
    assert_eq!(special(&case, RO), 0x6000_0000_0000_0010);
    case
}

#[test]
fn p1_p2_call_and_return() {
    let mut case = called();
    assert_eq!(step(&mut case, POP, 0, 0, 0).reply, 0);
    assert_eq!((case.state.pc, special(&case, RG), special(&case, RL), special(&case, RO)), (4, 32, 1, STACK_START));
    assert_eq!((case.state.general[0], case.state.general[1]), (7, 0));
}

#[test]
fn p3_return_with_one_output() {
    let mut case = called();
    assert_eq!(step(&mut case, POP, 1, 0, 0).reply, 0);
    assert_eq!((special(&case, RL), case.state.general[1]), (2, 0));
}

#[test]
fn p4_call_with_a_global_hole() {
    let mut case = start();
    case.state.special[RL] = 2;
    assert_eq!(step(&mut case, PUSHJ, 32, 0, 0).reply, 0);
    assert_eq!(special(&case, RO), STACK_START + 24);
    assert_eq!(octabyte(&case.windows.b.bytes[16..24]), 2);
}

#[test]
fn p5_p6_return_without_a_frame() {
    let mut case = start();
    case.state.special[RJ] = 0x100;
    let refused = step(&mut case, POP, 0, 0, 3);
    assert_eq!((refused.reply, refused.state.pc, refused.state.halt), (29, 0, 1));
    for ro in [0x6000_0000_0000_0001, 0x8000_0000_0000_0000] {
        let mut case = start();
        case.state.special[RO] = ro;
        assert_eq!(step(&mut case, POP, 0, 0, 0).reply, 12);
    }
}

#[test]
fn p7_p8_p9_put() {
    let put = |register: usize, rl: u64, value: u64| {
        let mut case = start();
        case.state.special[RL] = rl;
        case.state.general[40] = value;
        let reply = step(&mut case, PUT, register as u8, 0, 40).reply;
        (reply, special(&case, RL))
    };
    assert_eq!([31, 256, 32].map(|value| put(RG, 0, value).0), [10, 10, 0]);
    assert_eq!(put(RL, 2, 5), (0, 2));
    assert_eq!([0x3FFFF, 0x40000].map(|value| put(RA, 0, value).0), [0, 11]);
}

#[test]
fn p10_save() {
    let mut case = start();
    case.windows.b.bytes.truncate(1904);
    assert_eq!(step(&mut case, SAVE, 255, 0, 0).reply, 0);
    assert_eq!(case.state.general[255], 0x6000_0000_0000_0768);
    let mut case = start();
    case.windows.b.bytes.truncate(1896);
    assert_eq!(step(&mut case, SAVE, 255, 0, 0).reply, 6);
}

#[test]
fn p11_backward_branch() {
    for (yz, pc) in [(0u16, 0), (65535, 0x3FFFC)] {
        let mut case = start();
        (case.state.pc, case.state.general[40]) = (0x40000, 1 << 63);
        let [y, z] = yz.to_be_bytes();
        assert_eq!(step(&mut case, BNB, 40, y, z).reply, 0);
        assert_eq!(case.state.pc, pc);
    }
}

#[test]
fn p12_p13_exceptions() {
    for (ra, pc, after) in [(0x4000, 0x20, 0x4080), (0xC000, 0x10, 0xC040)] {
        let mut case = start();
        case.state.special[RA] = ra;
        let of = Instruction { op: 0x20, x: 1, y: 2, z: 3 };
        case.call = Call::Exceptions { flags: 0xC0, of, y_val: 4, z_val: 5 };
        assert_eq!(run(&mut case).reply, 0);
        assert_eq!((case.state.pc, special(&case, RA)), (pc, after));
    }
}

#[test]
fn p14_window_across_the_end() {
    let mut case = start();
    case.windows = Windows::one(0xFFFF_FFFF_FFFF_FFF8, vec![0; 16]);
    (case.state.special[RO], case.state.special[RL]) = (case.windows.b.base, 2);
    assert_eq!(step(&mut case, PUSHJ, 1, 0, 0).reply, 0);
    assert_eq!(special(&case, RO), 8);
}

/// Zero bytes.
fn window(base: u64, bytes: usize) -> Window {
    Window { base, bytes: vec![0; bytes] }
}

/// The points' windows, with so many bytes of B cut off its front and lent as A.
fn cut(bytes: usize) -> Windows {
    Windows { a: window(STACK_START, bytes), b: window(STACK_START + bytes as u64, 2048 - bytes) }
}

fn octabytes(window: &Window) -> Vec<u64> {
    window.bytes.chunks_exact(8).map(octabyte).collect()
}

/// Locals 7, 9, 11 pushed with the hole 2: $0 in the one window, $1 and the hole in the other, and back by POP.
#[test]
fn a_frame_across_both() {
    for exchanged in [false, true] {
        let mut case = start();
        case.windows = cut(8);
        if exchanged {
            case.windows.exchange();
        }
        case.state.general[..3].copy_from_slice(&[7, 9, 11]);
        case.state.special[RL] = 3;
        assert_eq!(step(&mut case, PUSHJ, 2, 0, 5).reply, 0);
        let Windows { a, b } = &case.windows;
        let (lower, upper) = if exchanged { (b, a) } else { (a, b) };
        assert_eq!((octabytes(lower), &octabytes(upper)[..3]), (vec![7], &[9, 2, 0][..]));
        assert_eq!(step(&mut case, POP, 0, 0, 0).reply, 0);
        assert_eq!((case.state.general[..3].to_vec(), special(&case, RL)), (vec![7, 9, 0], 2));
        assert_eq!(special(&case, RO), STACK_START);
    }
}

/// What the reader says on each subject, the Rust agreeing: reply, which window, start, length.
fn read(case: &Case, address: u64, expected: (u64, u64, usize, usize)) {
    let case = Case { call: Call::Context { address }, ..case.clone() };
    let answer = compare(&mut Reference::new(), &subjects(), &case).expect("all sides agree");
    assert_eq!((answer.reply, answer.which, answer.part.start, answer.part.len()), expected);
    for subject in subjects() {
        let (mut which, mut start, mut length) = (7, 7, 7);
        let found = Found { which: &mut which, start: &mut start, length: &mut length };
        let reply = subject.context(address, case.windows.show(), found);
        assert_eq!((reply, which, start, length), expected, "{}", subject.name());
    }
}

/// SAVE with its 238 octabytes in B, in A, and across both at each of three places: SAVE and UNSAVE are done, the reader gives 23
/// where it is across, and hands back the part of A or of B where it is not.
#[test]
fn a_context_in_either_and_across_both() {
    const LEN: usize = 8 * 238;
    for (bytes, expected) in [
        (0, (0, 1, 0, LEN)),
        (8, (23, 0, 0, 0)),
        (1000, (23, 0, 0, 0)),
        (LEN - 8, (23, 0, 0, 0)),
        (LEN, (0, 0, 0, LEN)),
        (2048, (0, 0, 0, LEN)),
    ] {
        for exchanged in [false, true] {
            let mut case = start();
            case.windows = cut(bytes);
            let mut expected = expected;
            if exchanged {
                case.windows.exchange();
                expected.1 = if expected.0 == 0 { 1 - expected.1 } else { 0 };
            }
            (40..256).for_each(|k| case.state.general[k] = 0x100 + k as u64);
            let before = case.state.general;
            assert_eq!(step(&mut case, SAVE, 255, 0, 0).reply, 0);
            let packed = case.state.general[255];
            assert_eq!(packed, 0x6000_0000_0000_0768);
            case.state.general[33..].fill(0);
            case.state.general[40] = packed;
            read(&case, packed, expected);
            assert_eq!(step(&mut case, UNSAVE, 0, 0, 40).reply, 0);
            assert_eq!((case.state.general, special(&case, RO)), (before, STACK_START));
        }
    }
}

/// 23 comes after UNSAVE's checks: across both, with a local count too large, the reader says 16; with rA too large 15; with a
/// needed octabyte in neither 6.
#[test]
fn the_reader_judges_23_last() {
    let mut case = start();
    case.windows = cut(8);
    assert_eq!(step(&mut case, SAVE, 255, 0, 0).reply, 0);
    let packed = case.state.general[255];
    read(&case, packed, (23, 0, 0, 0));
    let mut damaged = case.clone();
    damaged.windows.a.bytes.copy_from_slice(&33u64.to_be_bytes());
    read(&damaged, packed, (16, 0, 0, 0));
    let mut damaged = case.clone();
    let at = damaged.windows.b.distance(packed) as usize;
    damaged.windows.b.bytes[at..at + 8].copy_from_slice(&(32 << 56 | (RA_MAX + 1)).to_be_bytes());
    read(&damaged, packed, (15, 0, 0, 0));
    let mut cut_off = case.clone();
    cut_off.windows.b.bytes.drain(..8);
    cut_off.windows.b.base += 8;
    read(&cut_off, packed, (6, 0, 0, 0));
}

/// Two windows that touch are two windows and one stretch: a load and a store at the octabytes on both sides.
#[test]
fn touching_windows() {
    for (a, b) in [(64, 80), (80, 64), (16u64.wrapping_neg(), 0), (0, 16u64.wrapping_neg())] {
        let last = if b == a.wrapping_add(16) { a.wrapping_add(8) } else { b.wrapping_add(8) };
        let mut case = start();
        case.windows = Windows { a: window(a, 16), b: window(b, 16) };
        (case.state.general[40], case.state.general[41]) = (last, last.wrapping_add(8));
        (case.state.general[50], case.state.general[51]) = (1, 2);
        assert_eq!(step(&mut case, STO, 50, 40, 0).reply, 0);
        assert_eq!(step(&mut case, STO, 51, 41, 0).reply, 0);
        let (lower, upper) = if last == a.wrapping_add(8) { ([0, 1], [2, 0]) } else { ([2, 0], [0, 1]) };
        assert_eq!((octabytes(&case.windows.a), octabytes(&case.windows.b)), (lower.to_vec(), upper.to_vec()));
        assert_eq!(step(&mut case, LDO, 52, 41, 0).reply, 0);
        assert_eq!(case.state.general[52], 2);
        case.state.general[40] = last.wrapping_add(24);
        assert_eq!(step(&mut case, LDO, 52, 40, 0).reply, 6);
    }
}

/// A step that needs nothing, and the reader.
fn judged(windows: Windows) -> u64 {
    let mut case = start();
    case.windows = windows;
    let before = (case.state.clone(), case.windows.clone());
    let reply = step(&mut case, SWYM, 0, 0, 0).reply;
    if reply != 0 {
        assert_eq!((case.state.clone(), case.windows.clone()), before);
        read(&case, case.windows.b.base, (reply, 0, 0, 0));
    }
    reply
}

#[test]
fn sharing_windows() {
    let lent = |a: (u64, usize), b: (u64, usize)| judged(Windows { a: window(a.0, a.1), b: window(b.0, b.1) });
    // One octabyte, the last of A or the last of B; at the end of memory; all of the one.
    assert_eq!(lent((64, 24), (80, 24)), 22);
    assert_eq!(lent((80, 24), (64, 24)), 22);
    assert_eq!(lent((16u64.wrapping_neg(), 24), (0, 8)), 22);
    assert_eq!(lent((0, 8), (16u64.wrapping_neg(), 24)), 22);
    assert_eq!(lent((72, 8), (64, 24)), 22);
    assert_eq!(lent((64, 24), (72, 8)), 22);
    assert_eq!(lent((64, 24), (64, 24)), 22);
    // An empty window shares none, and windows that touch share none.
    assert_eq!(lent((72, 0), (64, 24)), 0);
    assert_eq!(lent((64, 24), (72, 0)), 0);
    assert_eq!(lent((64, 24), (88, 24)), 0);
    assert_eq!(lent((88, 24), (64, 24)), 0);
    assert_eq!(lent((16u64.wrapping_neg(), 16), (0, 8)), 0);
}

/// 1, then 2 for either window, an empty one too, then 22, then 3.
#[test]
fn rules_come_before_sharing() {
    let lent = |a: (u64, usize), b: (u64, usize)| judged(Windows { a: window(a.0, a.1), b: window(b.0, b.1) });
    assert_eq!(lent((64, 25), (80, 24)), 2);
    assert_eq!(lent((64, 24), (80, 20)), 2);
    assert_eq!(lent((68, 24), (80, 24)), 2);
    assert_eq!(lent((64, 24), (81, 24)), 2);
    assert_eq!(lent((0, WINDOW_MAX + 8), (80, 24)), 2);
    assert_eq!(lent((64, 24), (0, WINDOW_MAX + 8)), 2);
    assert_eq!(lent((1, 0), (64, 24)), 2);
    assert_eq!(lent((64, 24), (4, 0)), 2);
    assert_eq!(lent((0, WINDOW_MAX), (WINDOW_MAX as u64, WINDOW_MAX)), 0);

    let mut case = start();
    case.windows = Windows { a: window(64, 24), b: window(80, 24) };
    assert_eq!(step(&mut case, 0x01, 0, 0, 0).reply, 22);
    case.windows.a.bytes.truncate(16);
    assert_eq!(step(&mut case, 0x01, 0, 0, 0).reply, 3);
    case.state.special[RG] = 31;
    case.windows = Windows { a: window(64, 24), b: window(81, 24) };
    assert_eq!(step(&mut case, SWYM, 0, 0, 0).reply, 1);
}

/// A case survives its one-line text.
#[test]
fn lines_read_back() {
    for round in 0..20 {
        let mut run = |case: &Case| {
            assert_eq!(&oracle::case::parse(&case.to_string()).expect("a line"), case);
            compare(&mut Reference::new(), &subjects(), case).ok()
        };
        oracle::rounds::round(5, round, &mut run).expect("the two sides agree");
    }
}
