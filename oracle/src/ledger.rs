//! A ledger of points to return to: it notes under each name what was taken last, and lays out the store's bytes anew for each point. It tells
//! what mmix_take and mmix_go_back must answer and leave, apart from the model.

use crate::lent::{Window, Windows};
use crate::model::points::{POINTS, ROOM_LEN, STORE_LEN};
use crate::state::{IMAGE_LEN, State, WINDOW_MAX, is_image, octabyte};

/// What is held: an image and two windows.
#[derive(Clone, PartialEq)]
pub struct Held {
    pub image: Vec<u8>,
    pub windows: Windows,
}

impl Held {
    fn lengths(&self) -> [usize; 2] {
        [self.windows.a.bytes.len(), self.windows.b.bytes.len()]
    }

    /// 2 and 22.
    fn refused(&self) -> Option<u64> {
        let obeys = |w: &Window| w.base % 8 == 0 && w.bytes.len() % 8 == 0 && w.bytes.len() <= WINDOW_MAX;
        if !obeys(&self.windows.a) || !obeys(&self.windows.b) {
            return Some(2);
        }
        self.windows.share().then_some(22)
    }
}

fn admissible(image: &[u8]) -> bool {
    is_image(image.len()) && State::of_image(image).admissible()
}

/// What is known of a name.
#[derive(Clone)]
pub enum Kept {
    Nothing,
    Taken(Held),
    /// The host wrote the room.
    Written,
}

pub struct Ledger {
    pub store: Vec<u8>,
    pub names: Vec<Kept>,
}

impl Ledger {
    fn room(&self, name: u64) -> &[u8] {
        &self.store[name as usize * ROOM_LEN..][..ROOM_LEN]
    }

    pub fn number(&self, name: u64, k: usize) -> u64 {
        octabyte(&self.room(name)[IMAGE_LEN + 8 * k..][..8])
    }

    /// 26 and 27, of a store of so many bytes.
    fn refused(name: u64, len: usize) -> Option<u64> {
        if len < STORE_LEN {
            return Some(26);
        }
        (name > POINTS - 1).then_some(27)
    }

    pub fn take(&mut self, name: u64, held: &Held, len: usize) -> u64 {
        if !admissible(&held.image) {
            return 1;
        }
        if let Some(reply) = held.refused().or(Self::refused(name, len)) {
            return reply;
        }
        let Windows { a, b } = &held.windows;
        let mut laid = held.image.clone();
        laid.resize(IMAGE_LEN, 0);
        let kept = Held { image: laid.clone(), windows: held.windows.clone() };
        for number in [a.base, b.base, a.size() / 8, b.size() / 8, 1] {
            laid.extend(number.to_be_bytes());
        }
        let old = self.room(name).to_vec();
        for window in [&a.bytes, &b.bytes] {
            laid.extend(window);
            laid.extend(&old[laid.len()..][..WINDOW_MAX - window.len()]);
        }
        self.store[name as usize * ROOM_LEN..][..ROOM_LEN].copy_from_slice(&laid);
        self.names[name as usize] = Kept::Taken(kept);
        0
    }

    /// The point of a room that the host wrote, if it has the bases and lengths that are lent and an admissible state.
    fn written(&self, name: u64, held: &Held) -> Result<Held, u64> {
        let numbers: Vec<u64> = (0..5).map(|k| self.number(name, k)).collect();
        let [a, b] = held.lengths();
        let image = self.room(name)[..IMAGE_LEN].to_vec();
        if numbers[4] == 0 {
            return Err(27);
        }
        let lengths = numbers[2] as u128 * 8 == a as u128 && numbers[3] as u128 * 8 == b as u128;
        if !lengths || numbers[0] != held.windows.a.base || numbers[1] != held.windows.b.base || !admissible(&image) {
            return Err(28);
        }
        let mut back = Held { image, windows: held.windows.clone() };
        let places = &self.room(name)[ROOM_LEN - 2 * WINDOW_MAX..];
        back.windows.a.bytes.copy_from_slice(&places[..a]);
        back.windows.b.bytes.copy_from_slice(&places[WINDOW_MAX..][..b]);
        Ok(back)
    }

    pub fn go_back(&self, name: u64, held: &Held, len: usize) -> Result<Held, u64> {
        if !is_image(held.image.len()) {
            return Err(1);
        }
        if let Some(reply) = held.refused().or(Self::refused(name, len)) {
            return Err(reply);
        }
        let mut back = match &self.names[name as usize] {
            Kept::Nothing => Err(27),
            Kept::Written => self.written(name, held),
            Kept::Taken(point) => {
                let same = point.windows.at() == held.windows.at() && point.lengths() == held.lengths();
                if same { Ok(point.clone()) } else { Err(28) }
            }
        }?;
        // Last: an old image has room for no mask but 0, and keeps its length.
        if back.image[held.image.len()..].iter().any(|byte| *byte != 0) {
            return Err(1);
        }
        back.image.truncate(held.image.len());
        Ok(back)
    }
}
