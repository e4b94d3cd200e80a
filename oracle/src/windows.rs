//! Windows around the octabytes that a step is about, with an edge at them, one before, one after and far off; a second
//! window beside such a one, or the one made two; two that share octabytes; frames and saved contexts, whole and damaged.

use crate::case::Case;
use crate::lent::{Window, Windows};
use crate::random::Random;
use crate::state::{RA_MAX, RG, State, WINDOW_MAX};

/// A window of zeros around a run of octabytes: base and bytes.
pub fn around(random: &mut Random, first: u64, octabytes: u64) -> (u64, Vec<u8>) {
    if random.one_in(50) {
        return (8 * random.below(1 << 61), Vec::new());
    }
    let n = octabytes as i64;
    let most = WINDOW_MAX as i64 / 8;
    let slack = |random: &mut Random| match random.below(16) {
        0 => -1,
        1 => -(random.below(octabytes + 2) as i64),
        2 | 3 => 1,
        4 | 5 => random.below(40) as i64,
        6..=11 => 0,
        _ => random.below(6) as i64,
    };
    let (lead, trail) = if random.one_in(240) {
        let lead = random.below((most - n) as u64 + 1) as i64;
        (lead, most - n - lead)
    } else {
        (slack(random), slack(random))
    };
    let len = (lead + n + trail).clamp(0, most);
    let base = (first & !7).wrapping_sub((8 * lead) as u64);
    (base, vec![0; 8 * len as usize])
}

/// Fill a window with octabytes; a large one in places only.
pub fn fill(random: &mut Random, window: &mut [u8]) {
    let octabytes = window.len() / 8;
    match random.below(4) {
        0 => {}
        1 if octabytes <= 600 => {
            for bytes in window.chunks_exact_mut(8) {
                bytes.copy_from_slice(&random.any().to_be_bytes());
            }
        }
        _ => {
            for _ in 0..octabytes.min(32) {
                let at = 8 * random.below(octabytes as u64) as usize;
                window[at..at + 8].copy_from_slice(&random.value().to_be_bytes());
            }
        }
    }
}

/// Store an octabyte where it lies inside.
pub fn store(case: &mut Case, address: u64, value: u64) {
    if let Some(window) = case.windows.holding_mut(address) {
        let at = window.distance(address) as usize;
        window.bytes[at..at + 8].copy_from_slice(&value.to_be_bytes());
    }
}

/// A hole number at the boundaries of rG, with more above its low byte at times.
pub fn hole(random: &mut Random, state: &State) -> u64 {
    let rg = state.special[RG];
    match random.below(6) {
        0 => random.pick(&[0, 1, 254, 255]),
        1 => random.pick(&[rg - 1, rg, (rg + 1).min(255)]),
        2 => random.below(256),
        _ => random.below(12),
    }
}

/// A saved context as it stands in memory.
pub struct Saved {
    pub packed: u64,
    pub rg: u64,
    pub ra: u64,
    pub count: u64,
}

impl Saved {
    /// A context at an address: whole, or with some of its three numbers wrong.
    pub fn draw(random: &mut Random, packed: u64) -> Self {
        let rg = if random.one_in(2) { random.pick(&[32, 33, 254, 255]) } else { random.range(32, 255) };
        let ra = if random.one_in(4) { random.pick(&[0, RA_MAX]) } else { random.below(RA_MAX + 1) };
        let count = match random.below(4) {
            0 => random.pick(&[0, 1, rg - 1, rg]),
            1 => random.below(8),
            _ => random.range(0, rg),
        };
        let mut saved = Self { packed, rg, ra, count };
        let (bad_rg, bad_ra, bad_count) = match random.below(10) {
            0 => (true, false, false),
            1 => (false, true, false),
            2 => (false, false, true),
            3 => (random.one_in(2), random.one_in(2), random.one_in(2)),
            _ => (false, false, false),
        };
        if bad_rg {
            saved.rg = if random.one_in(2) { random.pick(&[0, 1, 30, 31]) } else { random.below(32) };
        }
        if bad_ra {
            saved.ra = random.pick(&[RA_MAX + 1, RA_MAX + 2, 1 << 24, 1 << 32, 1 << 55, (1 << 56) - 1]);
        }
        if bad_count {
            let wide = [rg + 1, rg + 2, 256, 256 + rg, 256 + 5, 1 << 32, (1 << 32) + 3, 1 << 63, u64::MAX];
            saved.count = random.pick(&wide);
        }
        saved
    }

    /// Its octabytes by what its numbers say; a wrong count counts as none.
    pub fn octabytes(&self) -> u64 {
        let count = if self.count <= self.rg { self.count } else { 0 };
        count + 270 - self.rg
    }

    pub fn first(&self) -> u64 {
        self.packed.wrapping_sub(8 * (self.octabytes() - 1))
    }

    /// Store its packed octabyte and its local count.
    pub fn store(&self, case: &mut Case) {
        store(case, self.packed, self.rg << 56 | self.ra);
        store(case, self.packed.wrapping_sub(8 * (269 - self.rg)), self.count);
    }
}

/// Break the rule of one window's length or base, at times of both.
pub fn spoil(random: &mut Random, case: &mut Case) {
    let Windows { a, b } = &mut case.windows;
    let (one, other) = if random.one_in(2) { (a, b) } else { (b, a) };
    spoil_one(random, one);
    if random.one_in(8) {
        spoil_one(random, other);
    }
}

/// Break the rule of a window's length or base.
pub fn spoil_one(random: &mut Random, window: &mut Window) {
    let off = random.range(1, 7);
    match random.below(16) {
        0..=4 => window.bytes.resize(random.pick(&[1, 4, 7, 9, 12, 15, 17, 2047, 2049, 4097]), 0),
        5 => window.bytes.resize(WINDOW_MAX - 8 + random.pick(&[7, 9, 16, 16, 2056]), 0),
        6..=10 => window.base = window.base.wrapping_add(off),
        _ => {
            window.bytes.clear();
            window.base = window.base.wrapping_add(off);
        }
    }
}

// ---- two windows

/// Make two windows of a case that has one, B, or leave it. Every octabyte that it has keeps its address, but for those
/// between two parts at times.
pub fn two(random: &mut Random, case: &mut Case) {
    let windows = &mut case.windows;
    match random.below(16) {
        0 => return,
        1 | 2 => windows.a.base = place_of_empty(random, &windows.b),
        3..=5 => apart(random, windows),
        6 => beside(random, windows),
        _ => split(random, windows),
    }
    if random.one_in(2) {
        windows.exchange();
    }
}

/// Where an empty window stands: anywhere, within the other too.
fn place_of_empty(random: &mut Random, other: &Window) -> u64 {
    let within = other.base.wrapping_add(8 * random.below(other.size() / 8 + 1));
    let anywhere = 8 * random.below(1 << 61);
    random.pick(&[0, within, within, anywhere, 8u64.wrapping_neg()])
}

/// Octabytes of a window of its own.
fn octabytes(random: &mut Random) -> u64 {
    match random.below(256) {
        0 => WINDOW_MAX as u64 / 8,
        1..=32 => 256,
        33..=96 => random.range(1, 3),
        _ => random.below(40),
    }
}

/// A window A apart from B: low, across the end of memory, one octabyte off, anywhere. Where that is not apart, A is empty.
fn apart(random: &mut Random, windows: &mut Windows) {
    let size = 8 * octabytes(random);
    let anywhere = 8 * random.below(1 << 61);
    let across = (8 * random.below(size / 8 + 1)).wrapping_neg();
    let (below, above) = (windows.b.base.wrapping_sub(size + 8), windows.b.end().wrapping_add(8));
    let base = random.pick(&[0, 0, anywhere, across, below, above]);
    windows.a = Window { base, bytes: vec![0; size as usize] };
    if windows.share() {
        windows.a.bytes.clear();
    }
    fill(random, &mut windows.a.bytes);
}

/// A window A that ends where B begins, or begins where B ends.
fn beside(random: &mut Random, Windows { a, b }: &mut Windows) {
    a.bytes = vec![0; 8 * random.range(1, 40) as usize];
    a.base = if random.one_in(2) { b.base.wrapping_sub(a.size()) } else { b.end() };
    fill(random, &mut a.bytes);
}

/// The one window as two that touch, A below; at the end of memory or anywhere. At times octabytes between them are taken away.
fn split(random: &mut Random, Windows { a, b }: &mut Windows) {
    let octabytes = b.size() / 8;
    let to_the_end = b.base.wrapping_neg();
    let at = match random.below(6) {
        _ if to_the_end < b.size() && random.one_in(2) => to_the_end,
        0 => 8 * random.pick(&[0, 1, octabytes.saturating_sub(1), octabytes]).min(octabytes),
        _ => 8 * random.below(octabytes + 1),
    };
    *a = cut(b, at);
    if random.one_in(8) {
        let gap = random.range(1, 3).min(b.size() / 8);
        cut(b, 8 * gap);
    }
}

/// Cut so many bytes off a window's front.
fn cut(window: &mut Window, bytes: u64) -> Window {
    let lower = Window { base: window.base, bytes: window.bytes.drain(..bytes as usize).collect() };
    window.base = window.base.wrapping_add(bytes);
    lower
}

/// The one window as two that touch before an octabyte or after it, where it has it.
pub fn split_at(random: &mut Random, case: &mut Case, address: u64) {
    let Windows { a, b } = &mut case.windows;
    if b.holds(address) {
        let at = b.distance(address) + random.pick(&[0, 8]);
        *a = cut(b, at);
    }
    if random.one_in(2) {
        case.windows.exchange();
    }
}

/// Make the two windows share octabytes: one at either end, all of one, or any. Neither is empty, and both keep their rule.
pub fn share(random: &mut Random, case: &mut Case) {
    let Windows { a, b } = &mut case.windows;
    for window in [&mut *a, &mut *b] {
        if window.bytes.is_empty() {
            window.bytes = vec![0; 8 * random.range(1, 5) as usize];
        }
    }
    if random.one_in(8) {
        b.base = (8 * random.range(1, b.size() / 8)).wrapping_neg();
    }
    if random.one_in(8) {
        a.bytes.resize(b.bytes.len(), 0x3C);
    }
    let (na, nb) = (a.size() / 8, b.size() / 8);
    // By how many octabytes A's first comes after B's, na − 1 more so that it is not negative.
    let shift = match random.below(8) {
        0 | 1 => 0,
        2 | 3 => na + nb - 2,
        4 => na - 1,
        5 => nb - 1,
        _ => random.below(na + nb - 1),
    };
    a.base = b.base.wrapping_add(8 * shift).wrapping_sub(8 * (na - 1));
}
