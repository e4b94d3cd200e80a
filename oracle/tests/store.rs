//! A store by hand: where a room's places lie, on the library, where it is linked, and on the model.

use oracle::lent::{Window, Windows};
use oracle::model::points::{ROOM_LEN, STORE_LEN};
use oracle::state::{IMAGE_LEN, RG, State};
use oracle::subject::subjects;

#[test]
fn places() {
    assert_eq!((ROOM_LEN, STORE_LEN), (2_099_528, 33_592_448));
    let mut state = State::zero();
    state.special[RG] = 32;
    let image = state.image();
    let a = Window { base: 0x100, bytes: vec![0xA1; 16] };
    let mut windows = Windows { a, b: Window { base: 0x6000_0000_0000_0000, bytes: vec![0xB2; 8] } };
    for subject in subjects() {
        let mut store = vec![0x55; STORE_LEN + 1];
        store[2 * ROOM_LEN + IMAGE_LEN + 32..][..8].fill(0);
        assert_eq!(subject.go_back(2, &mut image.to_vec(), windows.lend(), &store), 27);
        assert_eq!(subject.take(2, &image, windows.show(), &mut store), 0);
        let room = &store[4_199_056..6_298_584];
        assert_eq!(room[..2_336], image);
        assert_eq!(
            room[2_336..2_376],
            [
                0, 0, 0, 0, 0, 0, 1, 0, 0x60, 0, 0, 0, 0, 0, 0, 0, 0, 0, 0, 0, 0, 0, 0, 2, 0, 0, 0, 0, 0, 0, 0, 1, 0,
                0, 0, 0, 0, 0, 0, 1
            ]
        );
        assert!(
            room[2_376..2_392].iter().all(|byte| *byte == 0xA1)
                && room[1_050_952..1_050_960].iter().all(|byte| *byte == 0xB2)
        );
        assert!(room[2_392..1_050_952].iter().chain(&room[1_050_960..]).all(|byte| *byte == 0x55));
        assert!(store[..4_199_056].iter().chain(&store[6_298_584..]).all(|byte| *byte == 0x55));
    }
}

#[test]
fn given_back() {
    let mut state = State::zero();
    state.special[RG] = 40;
    let kept = Windows::one(0, (0..64).collect());
    for subject in subjects() {
        let mut store = vec![0; STORE_LEN];
        assert_eq!(subject.take(15, &state.image(), kept.show(), &mut store), 0);
        let (mut image, mut windows) = (vec![0xFF; IMAGE_LEN], Windows::one(0, vec![0xFF; 64]));
        assert_eq!(subject.go_back(14, &mut image, windows.lend(), &store), 27);
        assert_eq!(subject.go_back(16, &mut image, windows.lend(), &store), 27);
        assert_eq!(subject.go_back(15, &mut image, Windows::one(8, vec![0; 64]).lend(), &store), 28);
        assert_eq!(subject.go_back(15, &mut image, windows.lend(), &store[1..]), 26);
        assert!(image.iter().chain(&windows.b.bytes).all(|byte| *byte == 0xFF));
        assert_eq!(subject.go_back(15, &mut image, windows.lend(), &store), 0);
        assert!(image == state.image() && windows == kept);
    }
}
