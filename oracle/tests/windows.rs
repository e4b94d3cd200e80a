//! The longest windows by hand, 1,048,576 bytes, and one octabyte more: their last octabytes, across the end of memory, and frames, contexts, fetched
//! instructions and points there. On the Rust, the library, where it is linked, and the model.

use crate::common::{run, special, start, step};
use oracle::case::{Call, Case};
use oracle::compare::compare;
use oracle::lent::{Window, Windows};
use oracle::model::points::STORE_LEN;
use oracle::opcodes::{LDO, POP, PUSHJ, SAVE, STO, SWYM, UNSAVE};
use oracle::reference::Reference;
use oracle::state::*;
use oracle::subject::subjects;

const MOST: usize = 1_048_576;
const MORE: usize = 1_048_584;
/// 2^64 − 524,288: as many octabytes of a longest window lie before the end of memory as after it.
const ACROSS: u64 = 0xFFFF_FFFF_FFF8_0000;
const HALF: u64 = 0x8_0000;

fn window(base: u64, bytes: usize) -> Window {
    Window { base, bytes: vec![0; bytes] }
}

fn lent(a: (u64, usize), b: (u64, usize)) -> Case {
    let mut case = start();
    case.windows = Windows { a: window(a.0, a.1), b: window(b.0, b.1) };
    case
}

/// The reply of a store of $50 in the octabyte at an address, and then what a load gives back.
fn kept(case: &mut Case, address: u64) -> (u64, u64) {
    (case.state.general[40], case.state.general[50]) = (address, !address);
    let reply = step(case, STO, 50, 40, 0).reply;
    if reply != 0 {
        return (reply, 0);
    }
    assert_eq!(case.windows.octabyte_at(address), Some(!address));
    assert_eq!(step(case, LDO, 51, 40, 0).reply, 0);
    (0, case.state.general[51])
}

#[test]
fn lengths() {
    assert_eq!(WINDOW_MAX, MOST);
    let far = 1 << 40;
    for (a, b, reply) in [
        ((0, MOST), (far, MOST), 0),
        ((0, MORE), (far, MOST), 2),
        ((0, MOST), (far, MORE), 2),
        ((0, 0), (far, MORE), 2),
        ((0, MORE), (far, 0), 2),
        ((0, MOST + 1), (far, 8), 2),
        ((0, 65_544), (far, 65_544), 0),
        // Windows that touch, and two that share the one's last octabyte, or all.
        ((0, MOST), (MOST as u64, MOST), 0),
        ((0, MOST), (MOST as u64 - 8, MOST), 22),
        ((MOST as u64 - 8, MOST), (0, MOST), 22),
        ((far, MOST), (far, MOST), 22),
        ((0, MORE), (MOST as u64, MOST), 2),
    ] {
        let mut case = lent(a, b);
        let before = case.state.clone();
        assert_eq!(step(&mut case, SWYM, 0, 0, 0).reply, reply, "{a:x?} {b:x?}");
        assert!(reply == 0 || case.state == before);
        case.call = Call::Run { grant: 0 };
        assert_eq!(run(&mut case).reply, reply);
    }
}

#[test]
fn last_octabytes() {
    for (base, other) in [(0, STACK_START), (STACK_START, 0), (ACROSS, STACK_START), (MOST as u64, 0)] {
        for exchanged in [false, true] {
            let mut case = lent((base, MOST), (other, MOST));
            if exchanged {
                case.windows.exchange();
            }
            let last = base.wrapping_add(MOST as u64 - 8);
            for address in [base, last - 8, last] {
                assert_eq!(kept(&mut case, address), (0, !address), "{address:x}");
            }
            // The octabyte behind, and that before, lie in neither, but where the windows touch.
            let (behind, before) = (last.wrapping_add(8), base.wrapping_sub(8));
            assert_eq!(kept(&mut case, behind).0, 6);
            assert_eq!(kept(&mut case, before).0, if before == MOST as u64 - 8 { 0 } else { 6 });
        }
    }
}

#[test]
fn across_the_end_of_memory() {
    let mut case = lent((0, 0), (ACROSS, MOST));
    for address in [ACROSS, u64::MAX - 7, 0, 8, HALF - 8] {
        assert_eq!(kept(&mut case, address), (0, !address));
    }
    assert_eq!(case.windows.b.bytes[HALF as usize - 8..][..16], [[0, 0, 0, 0, 0, 0, 0, 7], [255; 8]].concat());
    assert_eq!(kept(&mut case, HALF).0, 6);
    assert_eq!(kept(&mut case, ACROSS - 8).0, 6);
    // Its neighbours on both sides, and one that shares its last octabyte or its first.
    for (base, reply) in [(HALF, 0), (ACROSS - MOST as u64, 0), (HALF - 8, 22), (ACROSS - MOST as u64 + 8, 22)] {
        let mut case = lent((base, MOST), (ACROSS, MOST));
        assert_eq!(step(&mut case, SWYM, 0, 0, 0).reply, reply, "{base:x}");
    }
    let mut case = lent((0, 0), (ACROSS, MORE));
    assert_eq!(step(&mut case, SWYM, 0, 0, 0).reply, 2);
    // A frame of two octabytes with the end of memory between them.
    let mut case = lent((STACK_START, MOST), (ACROSS, MOST));
    (case.state.general[0], case.state.general[1]) = (7, 9);
    (case.state.special[RL], case.state.special[RO]) = (2, u64::MAX - 7);
    assert_eq!(step(&mut case, PUSHJ, 1, 0, 5).reply, 0);
    assert_eq!(
        (special(&case, RO), case.windows.octabyte_at(u64::MAX - 7), case.windows.octabyte_at(0)),
        (8, Some(7), Some(1))
    );
}

/// $0 and the hole 1 pushed, the hole in the window's last octabyte; one octabyte further it lies in neither.
#[test]
fn a_frame_at_the_last_octabyte() {
    for exchanged in [false, true] {
        for off in [0, 8, 16] {
            let mut case = lent((0, MOST), (STACK_START, MOST));
            if exchanged {
                case.windows.exchange();
            }
            let at = STACK_START + MOST as u64 - 16 + off;
            (case.state.general[0], case.state.general[1]) = (7, 9);
            (case.state.special[RL], case.state.special[RO], case.state.special[RS]) = (2, at, at);
            let reply = step(&mut case, PUSHJ, 1, 0, 5).reply;
            assert_eq!(reply, if off == 0 { 0 } else { 6 });
            if off > 0 {
                assert_eq!((special(&case, RO), special(&case, RL)), (at, 2));
                continue;
            }
            assert_eq!((case.windows.octabyte_at(at), case.windows.octabyte_at(at + 8)), (Some(7), Some(1)));
            assert_eq!(step(&mut case, POP, 0, 0, 0).reply, 0);
            assert_eq!((special(&case, RO), special(&case, RL), case.state.general[0]), (at, 1, 7));
        }
    }
}

/// A context of 238 octabytes that ends with the window: saved, read and restored; one octabyte further it does not fit.
#[test]
fn a_context_at_the_last_octabyte() {
    const LEN: usize = 8 * 238;
    for off in [0, 8] {
        let mut case = lent((0, MOST), (STACK_START, MOST));
        let at = STACK_START + (MOST - LEN) as u64 + off;
        (case.state.special[RO], case.state.special[RS]) = (at, at);
        (40..256).for_each(|k| case.state.general[k] = 0x100 + k as u64);
        let before = case.state.general;
        assert_eq!(step(&mut case, SAVE, 255, 0, 0).reply, if off == 0 { 0 } else { 6 });
        if off > 0 {
            continue;
        }
        let packed = case.state.general[255];
        assert_eq!(packed, STACK_START + MOST as u64 - 8);
        case.call = Call::Context { address: packed };
        let answer = compare(&mut Reference::new(), &subjects(), &case).expect("all sides agree");
        assert_eq!((answer.reply, answer.which, answer.part), (0, 1, MOST - LEN..MOST));
        case.state.general[33..].fill(0);
        case.state.general[40] = packed;
        assert_eq!(step(&mut case, UNSAVE, 0, 0, 40).reply, 0);
        assert_eq!((case.state.general, special(&case, RO)), (before, at));
    }
}

/// A run fetches the last tetra of A, and behind it there is none.
#[test]
fn the_last_tetra_is_fetched() {
    let mut case = lent((0, MOST), (STACK_START, MOST));
    case.windows.a.bytes[MOST - 8..].copy_from_slice(&[SWYM, 0, 0, 0, SWYM, 0, 0, 0]);
    case.state.pc = MOST as u64 - 8;
    case.call = Call::Run { grant: 5 };
    let answer = run(&mut case);
    assert_eq!((answer.reply, answer.done, case.state.pc), (24, 2, MOST as u64));
}

/// A point of two longest windows, under the last name: given back byte for byte; and lengths above the largest are none of it.
#[test]
fn a_point_of_the_longest_windows() {
    let mut state = State::zero();
    state.special[RG] = 32;
    let full = |base: u64, step: u64| -> Window {
        let bytes = (0..MOST as u64 / 8).flat_map(|k| (k * step).to_be_bytes()).collect();
        Window { base, bytes }
    };
    let kept = Windows { a: full(0, 3), b: full(ACROSS - MOST as u64, 5) };
    let longer = Windows { a: window(0, MORE), b: kept.b.clone() };
    for subject in subjects() {
        let mut store = vec![0x77; STORE_LEN];
        assert_eq!(subject.take(15, &state.image(), longer.show(), &mut store), 2);
        assert_eq!(subject.take(15, &state.image(), kept.show(), &mut store[1..]), 26);
        assert!(store.iter().all(|byte| *byte == 0x77));
        assert_eq!(subject.take(15, &state.image(), kept.show(), &mut store), 0);
        assert_eq!(store[STORE_LEN - 8..], kept.b.bytes[MOST - 8..]);
        assert!(store[..STORE_LEN / 16 * 15].iter().all(|byte| *byte == 0x77));
        let (mut image, mut windows) = (vec![0xFF; IMAGE_LEN], kept.clone());
        windows.a.bytes.fill(0xFF);
        windows.b.bytes.fill(0xFF);
        assert_eq!(subject.go_back(15, &mut image, longer.clone().lend(), &store), 2);
        windows.b.bytes.truncate(MOST - 8);
        assert_eq!(subject.go_back(15, &mut image, windows.lend(), &store), 28);
        windows.b.bytes.resize(MOST, 0xFF);
        assert_eq!(subject.go_back(15, &mut image, windows.lend(), &store), 0);
        assert!(image == state.image() && windows == kept);
    }
}
