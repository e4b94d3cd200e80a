//! Masks by hand, on the library, where it is linked, and on the model: GET and PUT of each register, images of both lengths, points both ways.

use oracle::case::Instruction;
use oracle::lent::Windows;
use oracle::model::points::{ROOM_LEN, STORE_LEN};
use oracle::opcodes::{GET, PUTI, TRAP};
use oracle::state::*;
use oracle::subject::subjects;

/// rG 32, each special register its own number + 100 but for rG, rL and rA; the mask.
fn start(mask: u64) -> State {
    let mut state = State::zero();
    state.special = std::array::from_fn(|k| k as u64 + 100);
    (state.special[RG], state.special[RL], state.special[RA], state.mask) = (32, 0, 0, mask);
    state
}

fn step(state: &State, op: u8, x: u8, y: u8, z: u8) -> (u64, State) {
    let mut answers = Vec::new();
    for subject in subjects() {
        let (mut after, mut image) = (state.clone(), state.image());
        let i = Instruction { op, x, y, z };
        let reply = subject.step_parts(i, (&mut after).into(), Windows::default().lend());
        assert_eq!(subject.step(i, &mut image, Windows::default().lend()), reply, "{}", subject.name());
        assert_eq!(State::of_image(&image), after, "{}", subject.name());
        answers.push((reply, after));
    }
    assert!(answers.iter().all(|answer| *answer == answers[0]));
    answers.swap_remove(0)
}

#[test]
fn hideable() {
    assert_eq!(HIDEABLE, 0xF047_F380);
    for k in 0..64 {
        let (reply, after) = step(&start(1 << k), GET, 255, 0, RB as u8);
        let may = HIDEABLE >> k & 1 == 1;
        assert_eq!(reply, if may { 0 } else { 1 }, "bit {k}");
        assert!(may || after == start(1 << k));
    }
}

#[test]
fn get_and_put() {
    for k in 0..32 {
        let hidden = HIDEABLE >> k & 1 == 1;
        for mask in [HIDEABLE, if hidden { 1 << k } else { 0 }] {
            let mut halted = start(mask);
            halted.halt = 1;
            let (reply, after) = step(&start(mask), GET, 255, 0, k);
            if hidden {
                assert_eq!((reply, after), (31, halted.clone()), "GET of {k}");
            } else {
                assert_eq!((reply, after.general[255]), (0, start(0).special[k as usize]), "GET of {k}");
            }
            let (reply, after) = step(&start(mask), PUTI, k, 0, 40);
            if hidden {
                assert_eq!((reply, after), (31, halted), "PUT of {k}");
            } else {
                assert_eq!(reply, step(&start(0), PUTI, k, 0, 40).0, "PUT of {k}");
            }
        }
    }
    assert_eq!(step(&start(HIDEABLE), GET, 255, 0, 32).0, 5);
    assert_eq!(step(&start(HIDEABLE), PUTI, 32, 0, 0).0, 7);
}

#[test]
fn a_trap_writes_what_is_hidden() {
    let (reply, after) = step(&start(HIDEABLE), TRAP, 1, 2, 3);
    assert_eq!((reply, after.special[RXX], after.special[RWW]), (20, (1 << 63) + 0x01_02_03, 4));
}

#[test]
fn lengths() {
    for subject in subjects() {
        for len in [OLD_IMAGE_LEN, IMAGE_LEN] {
            let mut image = vec![0xA5; len];
            assert_eq!(subject.initialize(&mut image), 0);
            let mut state = start(!0);
            assert_eq!(subject.decode(&image, &mut state), 0);
            assert_eq!((state.special[RG], state.mask), (32, 0));
            image.fill(0xA5);
            assert_eq!(subject.initialize_at(&mut image, 0x1238), 0);
            let mut moved = start(!0);
            assert_eq!(subject.decode(&image, &mut moved), 0);
            state.special[RO] = 0x1238;
            state.special[RS] = 0x1238;
            assert!(moved.difference(&state).is_none());
            assert_eq!(subject.encode(&start(0), &mut image), 0);
            assert!(image == start(0).image()[..len]);
        }
        let mut old = vec![0xA5; OLD_IMAGE_LEN];
        assert_eq!(subject.encode(&start(1 << RC), &mut old), 1);
        assert!(old.iter().all(|byte| *byte == 0xA5));
        for len in [0, OLD_IMAGE_LEN - 8, OLD_IMAGE_LEN + 1, IMAGE_LEN - 1, IMAGE_LEN + 8] {
            let mut other = vec![0xA5; len];
            assert_eq!(subject.initialize(&mut other), 1);
            assert_eq!(subject.initialize_at(&mut other, 0x1238), 1);
            assert_eq!(subject.encode(&start(0), &mut other), 1);
            assert_eq!(subject.decode(&other, &mut start(0)), 1);
            assert!(other.iter().all(|byte| *byte == 0xA5));
        }
    }
}

#[test]
fn points() {
    let mut windows = Windows::one(0, vec![7; 64]);
    for subject in subjects() {
        let mut store = vec![0; STORE_LEN];
        // Old in: mask 0 is kept, and both lengths are given back.
        store[OLD_IMAGE_LEN..IMAGE_LEN].fill(0xFF);
        assert_eq!(subject.take(0, &start(0).image()[..OLD_IMAGE_LEN], windows.show(), &mut store), 0);
        assert!(store[..IMAGE_LEN] == start(0).image());
        for len in [OLD_IMAGE_LEN, IMAGE_LEN] {
            let mut image = vec![0xA5; len];
            assert_eq!(subject.go_back(0, &mut image, windows.lend(), &store), 0);
            assert!(image == start(0).image()[..len]);
        }
        // A mask in: an old image is left as it was, by 1, which comes after 28.
        assert_eq!(subject.take(1, &start(HIDEABLE).image(), windows.show(), &mut store), 0);
        assert!(store[ROOM_LEN..][..IMAGE_LEN] == start(HIDEABLE).image());
        let (mut old, mut other) = (vec![0xA5; OLD_IMAGE_LEN], Windows::one(0, vec![9; 64]));
        assert_eq!(subject.go_back(1, &mut old, other.lend(), &store), 1);
        assert_eq!(subject.go_back(1, &mut old, Windows::one(8, vec![9; 64]).lend(), &store), 28);
        assert!(old.iter().all(|byte| *byte == 0xA5) && other.b.bytes.iter().all(|byte| *byte == 9));
        let mut image = vec![0xA5; IMAGE_LEN];
        assert_eq!(subject.go_back(1, &mut image, other.lend(), &store), 0);
        assert!(image == start(HIDEABLE).image() && other == windows);
        assert_eq!(subject.take(2, &start(1 << RR).image(), windows.show(), &mut store), 1);
    }
}
