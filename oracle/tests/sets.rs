//! Sets by hand, on the library, where it is linked, and on the model: order, places, the two lengths, what is left.

use oracle::state::{RA, RA_MAX, RB, RC, RG, RJ, RL, RN, State};
use oracle::subject::subjects;

/// rG 50, rL 48, each register its own number + 1, PC 0x1234.
fn start() -> State {
    let mut state = State::zero();
    state.general = std::array::from_fn(|k| k as u64 + 1);
    (state.special[RG], state.special[RL], state.pc) = (50, 48, 0x1234);
    state
}

/// Reply, place and state by both functions of each subject.
fn set(start: &State, pairs: &[(usize, u64)], expected: (u64, u64), left: &State) {
    for subject in subjects() {
        let octabytes: Vec<u64> = pairs.iter().flat_map(|(register, value)| [*register as u64, *value]).collect();
        let bytes: Vec<u8> = octabytes.iter().flat_map(|v| v.to_be_bytes()).collect();
        let (mut state, mut place) = (start.clone(), 99);
        let reply = subject.put_set_parts((&mut state).into(), &octabytes, &mut place);
        assert_eq!(((reply, place), state.difference(left)), (expected, None), "{} {pairs:x?}", subject.name());
        let (mut image, mut place) = (start.image().to_vec(), 99);
        let reply = subject.put_set(&mut image, &bytes, &mut place);
        assert_eq!((reply, place), expected, "{} {pairs:x?} on an image", subject.name());
        assert!(image == left.image(), "{} {pairs:x?} on an image", subject.name());
    }
}

fn refused(pairs: &[(usize, u64)], expected: (u64, u64)) {
    let mut left = start();
    left.halt = 1;
    set(&start(), pairs, expected, &left);
}

#[test]
fn in_order() {
    let mut left = start();
    left.general[..50].fill(0);
    (left.special[RG], left.special[RL], left.special[RA]) = (32, 0, RA_MAX);
    set(&start(), &[(RL, 0), (RG, 32), (RA, RA_MAX)], (0, 0), &left);
    refused(&[(RG, 32), (RL, 0)], (10, 0));
    let mut left = start();
    left.special[RJ] = 2;
    set(&start(), &[(RJ, 1), (RJ, 2), (RL, 49)], (0, 0), &left);
}

#[test]
fn none_takes_effect() {
    refused(&[(RL, 1), (RG, 40), (RA, RA_MAX + 1)], (11, 2));
    refused(&[(RB, 1), (RC, 0), (32, 0)], (8, 1));
    refused(&[(RN, 0)], (9, 0));
    refused(&[(RB, 1), (32, 0)], (7, 1));
    refused(&[(256 + RG, 50)], (7, 0));
    refused(&[((1 << 32) + RL, 0)], (7, 0));
    refused(&[(1 << 63, 0)], (7, 0));
}

#[test]
fn lengths() {
    set(&start(), &[], (0, 0), &start());
    let mut left = start();
    left.special[RB] = 7;
    set(&start(), &[(RB, 7); 32], (0, 0), &left);
    set(&start(), &[(RC, 7); 33], (30, 0), &start());
    let mut spoiled = start();
    spoiled.special[RG] = 31;
    set(&spoiled, &[(RG, 32)], (1, 0), &spoiled);
    set(&spoiled, &[(RB, 7); 33], (1, 0), &spoiled);
}

#[test]
fn ends_that_are_not_looked_at() {
    for subject in subjects() {
        let (mut state, mut place) = (start(), 99);
        assert_eq!(subject.put_set_parts((&mut state).into(), &[RB as u64, 7, RC as u64], &mut place), 0);
        assert_eq!((state.special[RB], place), (7, 0));
        let pair: Vec<u8> = [RB as u64, 9, RC as u64, 0].iter().flat_map(|v| v.to_be_bytes()).collect();
        for len in 16..32 {
            let mut image = start().image().to_vec();
            assert_eq!(subject.put_set(&mut image, &pair[..len], &mut place), 0);
            assert_eq!(State::of_image(&image).special[RB], 9);
        }
        let mut image = start().image().to_vec();
        assert_eq!((subject.put_set(&mut image, &pair, &mut place), place), (8, 1));
        let (mut short, mut place) = (image[1..].to_vec(), 99);
        assert_eq!((subject.put_set(&mut short, &pair, &mut place), place), (1, 0));
        assert_eq!(short, image[1..]);
    }
}
