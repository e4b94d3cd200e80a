//! Points to return to, from 02: a store of sixteen rooms, and each room by its places.

use crate::state::{IMAGE_LEN, State, WINDOW_MAX, octabyte};

pub const POINTS: u64 = 16;
const NUMBERS: usize = IMAGE_LEN;
const PLACE_A: usize = NUMBERS + 5 * 8;
const PLACE_B: usize = PLACE_A + WINDOW_MAX;
pub const ROOM_LEN: usize = PLACE_B + WINDOW_MAX;
pub const STORE_LEN: usize = POINTS as usize * ROOM_LEN;

/// 26, the store is too short; 27, there is no such name. Else where the room starts.
pub fn room_at(name: u64, store: &[u8]) -> Result<usize, u64> {
    if store.len() < STORE_LEN {
        return Err(26);
    }
    if name >= POINTS {
        return Err(27);
    }
    Ok(name as usize * ROOM_LEN)
}

/// Both bases, both lengths in octabytes, and that a point is taken.
fn numbers(at: [u64; 2], a: &[u8], b: &[u8]) -> [u64; 5] {
    [at[0], at[1], a.len() as u64 / 8, b.len() as u64 / 8, 1]
}

/// What was judged goes to the front of its places; where an old image has no mask, 0 does.
pub fn fill(room: &mut [u8], at: [u64; 2], image: &[u8], a: &[u8], b: &[u8]) {
    room[..IMAGE_LEN].fill(0);
    room[..image.len()].copy_from_slice(image);
    for (bytes, number) in room[NUMBERS..PLACE_A].chunks_exact_mut(8).zip(numbers(at, a, b)) {
        bytes.copy_from_slice(&number.to_be_bytes());
    }
    room[PLACE_A..PLACE_A + a.len()].copy_from_slice(a);
    room[PLACE_B..PLACE_B + b.len()].copy_from_slice(b);
}

/// 27, no point is taken; 28, another one than is lent, or none that a machine can be in; 1, its mask has no room in an old image.
/// Else 0, and it is given back.
pub fn restore(room: &[u8], at: [u64; 2], image: &mut [u8], a: &mut [u8], b: &mut [u8]) -> u64 {
    let mut kept = room[NUMBERS..PLACE_A].chunks_exact(8).map(octabyte);
    let kept: [u64; 5] = std::array::from_fn(|_| kept.next().unwrap());
    if kept[4] == 0 {
        return 27;
    }
    if kept[..4] != numbers(at, a, b)[..4] {
        return 28;
    }
    let state = State::of_image(&room[..IMAGE_LEN]);
    if !state.admissible() {
        return 28;
    }
    if !state.fits(image.len()) {
        return 1;
    }
    image.copy_from_slice(&room[..image.len()]);
    a.copy_from_slice(&room[PLACE_A..PLACE_A + a.len()]);
    b.copy_from_slice(&room[PLACE_B..PLACE_B + b.len()]);
    0
}
