//! Points to return to: drawn histories of calls on one store. The Rust has none; what a call must answer and leave is told by a ledger.
//! Between the calls image and windows change; now and then the host writes a room itself, and that room's bytes then tell.

use crate::case::{Call, Case};
use crate::ledger::{Held, Kept, Ledger};
use crate::lent::{Window, Windows};
use crate::model::points::{POINTS, ROOM_LEN, STORE_LEN};
use crate::random::Random;
use crate::state::{HIDEABLE, IMAGE_LEN, OLD_IMAGE_LEN, WINDOW_MAX};
use crate::subject::Subject;
use crate::{states, windows};

/// Calls of one history.
const CALLS: u64 = 12;
/// Bytes behind the sixteenth room.
const BEHIND: usize = 24;
/// Bytes before and after the start of a room and of its windows' places that are drawn one by one, an image among them.
const EDGE: usize = 4096;
const REPLIES: usize = 29;
/// What each function can answer.
const TAKE_REPLIES: [usize; 6] = [0, 1, 2, 22, 26, 27];
const BACK_REPLIES: [usize; 7] = [0, 1, 2, 22, 26, 27, 28];
/// How often each must have been met.
const ENOUGH: u64 = 40;

/// How often each reply was met.
#[derive(Default)]
pub struct Met {
    calls: u64,
    take: Vec<u64>,
    back: Vec<u64>,
    /// Points with a mask that an old image has no room for, and points gone back to in an old image.
    no_room: u64,
    old: u64,
}

impl Met {
    fn new() -> Self {
        Self { calls: 0, take: vec![0; REPLIES], back: vec![0; REPLIES], no_room: 0, old: 0 }
    }

    pub fn calls(&self) -> u64 {
        self.calls
    }

    pub fn print(&self) {
        for (name, counts) in [("take", &self.take), ("go_back", &self.back)] {
            let met = (0..REPLIES).filter(|k| counts[*k] > 0).map(|k| format!("{k}: {}", counts[k]));
            println!("{name:<14} {}", met.collect::<Vec<_>>().join(", "));
        }
        println!("  into an old image: {}, a mask with no room in one: {}", self.old, self.no_room);
    }

    pub fn seldom(&self) -> Vec<String> {
        let few = |name: &str, counts: &[u64], replies: &[usize]| {
            let few = replies.iter().filter(|k| counts[**k] < ENOUGH);
            few.map(|k| format!("{name} with reply {k}: {}", counts[*k])).collect::<Vec<_>>()
        };
        let images = [("go_back into an old image", self.old), ("go_back, a mask with no room", self.no_room)];
        let images = images.iter().filter(|(_, count)| *count < ENOUGH).map(|(name, count)| format!("{name}: {count}"));
        let replies = [few("take", &self.take, &TAKE_REPLIES), few("go_back", &self.back, &BACK_REPLIES)];
        replies.concat().into_iter().chain(images).collect()
    }
}

/// One of a few shapes, so that a point is often gone back to as it was taken.
fn shape(random: &mut Random) -> Windows {
    let length = |random: &mut Random| match random.below(8) {
        0 => 0,
        1 => WINDOW_MAX,
        2 => WINDOW_MAX - 8,
        _ => 8 * random.below(64) as usize,
    };
    let a = Window { base: 8 * random.below(1 << 20), bytes: vec![0; length(random)] };
    let base = random.pick(&[1 << 62, 1 << 63, 0x6000_0000_0000_0000, 64u64.wrapping_neg()]);
    Windows { a, b: Window { base, bytes: vec![0; length(random)] } }
}

/// The same shape but for one number: a base, or a length.
fn neighbour(random: &mut Random, shape: &Windows) -> Windows {
    let mut other = shape.clone();
    let window = if random.one_in(2) { &mut other.a } else { &mut other.b };
    match random.below(2) {
        0 => window.base = window.base.wrapping_add(8),
        _ if window.bytes.is_empty() => window.bytes = vec![0; 8],
        _ => window.bytes.truncate(window.bytes.len() - 8),
    }
    other
}

/// What a call is lent: any state and any bytes, in one of the shapes; now and then something that is refused.
fn held(random: &mut Random, shapes: &[Windows]) -> Held {
    let shape = &shapes[random.below(shapes.len() as u64) as usize];
    let mut case = Case::none(Call::Initialize, states::admissible(random));
    case.windows = shape.clone();
    windows::fill(random, &mut case.windows.a.bytes);
    windows::fill(random, &mut case.windows.b.bytes);
    match random.below(16) {
        0 | 1 => states::spoil(random, &mut case),
        2 => windows::spoil(random, &mut case),
        3 => windows::share(random, &mut case),
        _ => {}
    }
    match random.below(3) {
        0 if case.image_len == IMAGE_LEN => case.image_len = OLD_IMAGE_LEN,
        1 => case.state.mask = random.any() & HIDEABLE,
        _ => {}
    }
    Held { image: case.image(), windows: case.windows }
}

fn name(random: &mut Random) -> u64 {
    match random.below(12) {
        0 => random.pick(&[16, 17, 1 << 32, 1 << 63, u64::MAX, (1 << 60) + 3]),
        1 => 15,
        2 => random.below(POINTS),
        _ => random.below(3),
    }
}

fn store_len(random: &mut Random) -> usize {
    match random.below(12) {
        0 => random.pick(&[0, 1, ROOM_LEN, STORE_LEN - ROOM_LEN, STORE_LEN - 8, STORE_LEN - 1]),
        1 => STORE_LEN + BEHIND,
        _ => STORE_LEN,
    }
}

/// The host writes a number or a byte of the image of some room.
fn tamper(random: &mut Random, ledger: &mut Ledger, stores: &mut [Vec<u8>]) {
    let name = random.below(3);
    let room = name as usize * ROOM_LEN;
    let k = random.below(5) as usize;
    let (at, value) = match random.below(4) {
        0 => (IMAGE_LEN + 8 * 4, random.pick(&[0, 1, 2, 1 << 63, 1 << 8, u64::MAX])),
        1 => (IMAGE_LEN + 8 * k, ledger.number(name, k) ^ (1 << random.below(64))),
        // Eight times this one, modulo 2^64, is eight times what stood there.
        2 => (IMAGE_LEN + 8 * (2 + k % 2), ledger.number(name, 2 + k % 2).wrapping_add(1 << 61)),
        _ => (2048 + 8 * random.pick(&[19, 20, 21, 34]), random.value()),
    };
    for store in stores.iter_mut().chain([&mut ledger.store]) {
        store[room + at..][..8].copy_from_slice(&value.to_be_bytes());
    }
    ledger.names[name as usize] = Kept::Written;
}

/// The ledger and each subject's store, which every history begins anew: they are long, so they are made once, and only rooms that were taken are
/// cleared.
struct Stores {
    ledger: Ledger,
    stores: Vec<Vec<u8>>,
}

/// What lies between the edges.
const BETWEEN: u8 = 0x5C;

impl Stores {
    fn new(count: usize) -> Self {
        let store = vec![BETWEEN; STORE_LEN + BEHIND];
        Self { stores: vec![store.clone(); count], ledger: Ledger { store, names: Vec::new() } }
    }

    /// Around where a place begins they have any bytes, but that no point is taken.
    fn begin(&mut self, random: &mut Random) {
        let taken = |k: &usize| matches!(self.ledger.names.get(*k), Some(Kept::Taken(_) | Kept::Written));
        let cleared: Vec<usize> = (0..POINTS as usize).filter(taken).collect();
        let starts = [0, ROOM_LEN - 2 * WINDOW_MAX, ROOM_LEN - WINDOW_MAX];
        let places: Vec<usize> = (0..=POINTS as usize).flat_map(|k| starts.map(|at| k * ROOM_LEN + at)).collect();
        let edges: Vec<u64> = places.iter().flat_map(|_| [(); EDGE / 4]).map(|()| random.any()).collect();
        for store in self.stores.iter_mut().chain([&mut self.ledger.store]) {
            cleared.iter().for_each(|k| store[k * ROOM_LEN..][..ROOM_LEN].fill(BETWEEN));
            for (place, drawn) in places.iter().zip(edges.chunks_exact(EDGE / 4)) {
                let edge = store.iter_mut().skip(place.saturating_sub(EDGE));
                edge.zip(drawn.iter().flat_map(|v| v.to_be_bytes())).for_each(|(byte, v)| *byte = v);
            }
            (0..POINTS as usize).for_each(|k| store[k * ROOM_LEN + IMAGE_LEN + 8 * 4..][..8].fill(0));
        }
        self.ledger.names = (0..POINTS).map(|_| Kept::Nothing).collect();
    }
}

/// Whether a call under a name leaves the store that the ledger has: its room, and after the last call all of it.
fn same(store: &[u8], ledger: &[u8], name: u64, call: u64) -> bool {
    let room = name.min(POINTS - 1) as usize * ROOM_LEN;
    let after = if call == CALLS - 1 { 0..store.len() } else { room..room + ROOM_LEN };
    store[after.clone()] == ledger[after]
}

/// One history on each subject; what differs.
fn history(
    seed: u64,
    number: u64,
    subjects: &[Box<dyn Subject>],
    stores: &mut Stores,
    met: &mut Met,
) -> Result<(), String> {
    let mut random = Random::new(!seed, number);
    stores.begin(&mut random);
    let Stores { ledger, stores } = stores;
    let mut shapes: Vec<Windows> = (0..random.range(1, 3)).map(|_| shape(&mut random)).collect();
    if random.one_in(2) {
        shapes.push(neighbour(&mut random, &shapes[0]));
    }
    for call in 0..CALLS {
        if random.one_in(12) {
            tamper(&mut random, ledger, stores);
        }
        let (lent, name, len) = (held(&mut random, &shapes), name(&mut random), store_len(&mut random));
        let taking = random.one_in(2);
        let (reply, left) = match taking {
            true => (ledger.take(name, &lent, len), lent.clone()),
            false => ledger.go_back(name, &lent, len).map_or_else(|reply| (reply, lent.clone()), |back| (0, back)),
        };
        for (subject, store) in subjects.iter().zip(stores.iter_mut()) {
            let mut given = lent.clone();
            let told = match taking {
                true => subject.take(name, &given.image, given.windows.show(), &mut store[..len]),
                false => subject.go_back(name, &mut given.image, given.windows.lend(), &store[..len]),
            };
            let what = if taking { "take" } else { "go_back" };
            let differs =
                |what: String| Err(format!("{}: {what}\nhistory {seed} {number}, call {call}", subject.name()));
            if told != reply {
                return differs(format!("{what} of {name} replies {told} and not {reply}"));
            }
            if given != left {
                return differs(format!("{what} of {name}, reply {reply}, leaves another image or window"));
            }
            if !same(store, &ledger.store, name, call) {
                return differs(format!("{what} of {name}, reply {reply}, leaves another store"));
            }
        }
        met.calls += 1;
        let counts = if taking { &mut met.take } else { &mut met.back };
        counts[reply as usize] += 1;
        let old = !taking && lent.image.len() == OLD_IMAGE_LEN;
        met.old += (old && reply == 0) as u64;
        met.no_room += (old && reply == 1) as u64;
    }
    Ok(())
}

/// So many histories.
pub fn histories(seed: u64, count: u64, subjects: &[Box<dyn Subject>]) -> (Met, Result<(), String>) {
    let (mut met, mut stores) = (Met::new(), Stores::new(subjects.len()));
    let found = (0..count).try_for_each(|number| history(seed, number, subjects, &mut stores, &mut met));
    (met, found)
}

/// The history that a line names, again.
pub fn replay(line: &str, subjects: &[Box<dyn Subject>]) -> Option<Result<(), String>> {
    let mut words = line.strip_prefix("history ")?.split([' ', ',']);
    let (seed, number) = (words.next()?.parse().ok()?, words.next()?.parse().ok()?);
    Some(history(seed, number, subjects, &mut Stores::new(subjects.len()), &mut Met::new()))
}
