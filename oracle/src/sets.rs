//! Sets of special registers: drawn lists of pairs on drawn states. The Rust has no such call, but it has PUT: a set is answered by the Rust pair by
//! pair, on a copy, each value in $255, which no PUT clears. 1, 30, a number that no byte holds, and that a refusal leaves nothing are judged here.

use crate::case::{Call, Case, Instruction};
use crate::model::sets::PAIRS_MAX;
use crate::opcodes::PUT;
use crate::random::Random;
use crate::reference::Reference;
use crate::state::*;
use crate::states;
use crate::subject::Subject;

const REPLIES: usize = 31;
/// What a set can answer.
const SET_REPLIES: [usize; 8] = [0, 1, 7, 8, 9, 10, 11, 30];
/// How often each must have been met, and each situation.
const ENOUGH: u64 = 100;

const PRIVILEGED: [usize; 8] = [RC, RI, RK, RQ, RT, RU, RV, RTT];
const ILLEGAL: [usize; 3] = [RN, RO, RS];
/// Registers that PUT just sets.
const PLAIN: [usize; 18] = [RB, RD, RE, RH, RJ, RM, RR, RBB, RF, RP, RW, RX, RY, RZ, RWW, RXX, RYY, RZZ];

type Pairs = Vec<(u64, u64)>;

/// A set: the state with its image's length, the pairs, and what stands behind the last one.
struct Set {
    case: Case,
    pairs: Pairs,
    tail: Vec<u8>,
}

/// The reply, the place and the state.
type Told = (u64, u64, State);

type Situation = (&'static str, fn(&Set, &Told) -> bool);

const SITUATIONS: [Situation; 11] = [
    ("no pair", |set, told| set.pairs.is_empty() && told.0 == 0),
    ("32 pairs done", |set, told| set.pairs.len() == PAIRS_MAX && told.0 == 0),
    ("33 pairs", |set, told| set.pairs.len() == PAIRS_MAX + 1 && told.0 == 30),
    ("33 pairs and 1", |set, told| set.pairs.len() > PAIRS_MAX && told.0 == 1),
    ("the last of 32 fails", |set, told| set.pairs.len() == PAIRS_MAX && told.0 > 6 && told.1 == 31),
    ("one fails behind others", |_, told| told.0 > 6 && told.0 < 12 && told.1 > 0),
    ("rG below the rL that was", |set, told| told.0 == 0 && told.2.special[RG] < set.case.state.special[RL]),
    ("a number that no byte holds", |set, told| told.0 == 7 && set.pairs[told.1 as usize].0 > 255),
    ("a hidden register is set", |set, told| {
        told.0 == 0 && set.pairs.iter().any(|(k, _)| *k < 32 && set.case.state.hides(*k as u8))
    }),
    ("on an old image", |set, told| told.0 == 0 && set.case.image_len == OLD_IMAGE_LEN),
    ("a part of a pair at the end", |set, told| !set.tail.is_empty() && told.0 == 0),
];

/// How often each reply and each situation was met.
#[derive(Default)]
pub struct Met {
    calls: u64,
    replies: Vec<u64>,
    situations: [u64; SITUATIONS.len()],
}

impl Met {
    fn new() -> Self {
        Self { calls: 0, replies: vec![0; REPLIES], situations: [0; SITUATIONS.len()] }
    }

    pub fn calls(&self) -> u64 {
        self.calls
    }

    pub fn print(&self) {
        let met = (0..REPLIES).filter(|k| self.replies[*k] > 0).map(|k| format!("{k}: {}", self.replies[k]));
        println!("{:<14} {}", "put_set", met.collect::<Vec<_>>().join(", "));
        SITUATIONS.iter().zip(self.situations).for_each(|((name, _), count)| println!("  {name}: {count}"));
    }

    pub fn seldom(&self) -> Vec<String> {
        let replies = SET_REPLIES.iter().map(|k| (format!("put_set with reply {k}"), self.replies[*k]));
        let situations = SITUATIONS.iter().zip(self.situations).map(|((name, _), n)| (format!("put_set, {name}"), n));
        let few = replies.chain(situations).filter(|(_, count)| *count < ENOUGH);
        few.map(|(name, count)| format!("{name}: {count}")).collect()
    }

    fn count(&mut self, set: &Set, told: &Told) {
        self.calls += 1;
        self.replies[told.0 as usize] += 1;
        for (count, (_, test)) in self.situations.iter_mut().zip(SITUATIONS) {
            *count += test(set, told) as u64;
        }
    }
}

/// A pair that passes where rL is `rl`, which is lowered as it lowers it.
fn good(random: &mut Random, rl: &mut u64) -> (u64, u64) {
    let least = (*rl).max(32);
    match random.below(6) {
        0 => (RG as u64, if random.one_in(2) { random.pick(&[least, 255]) } else { random.range(least, 255) }),
        1 => {
            let value = random.pick(&[0, *rl / 2, rl.saturating_sub(1), *rl, *rl + 1, 256, 1 << 63, u64::MAX]);
            *rl = (*rl).min(value);
            (RL as u64, value)
        }
        2 => (RA as u64, if random.one_in(2) { random.pick(&[0, RA_MAX]) } else { random.below(RA_MAX + 1) }),
        _ => (random.pick(&PLAIN) as u64, random.value()),
    }
}

/// A pair that fails there.
fn bad(random: &mut Random, rl: u64) -> (u64, u64) {
    match random.below(6) {
        0 => (random.pick(&[32, 33, 64, 128, 255]), random.value()),
        1 => (random.pick(&[256, 256 + 19, 256 + 20, (1 << 32) + 21, 1 << 63, u64::MAX]), random.below(256)),
        2 => (random.pick(&PRIVILEGED) as u64, random.value()),
        3 => (random.pick(&ILLEGAL) as u64, random.value()),
        4 => {
            let under = if rl > 32 { rl - 1 } else { 31 };
            (RG as u64, random.pick(&[0, 31, under, under, 256, 256 + 40, 1 << 32, u64::MAX]))
        }
        _ => (RA as u64, random.pick(&[RA_MAX + 1, 1 << 18, 1 << 32, 1 << 63, u64::MAX])),
    }
}

fn drawn(random: &mut Random) -> Set {
    let mut case = Case::none(Call::Initialize, states::admissible(random));
    if random.one_in(8) {
        states::spoil(random, &mut case);
    }
    let count = match random.below(12) {
        0 => 0,
        1 | 2 => 32,
        3 => random.pick(&[33, 34]),
        4 => 31,
        _ => random.range(1, 12),
    };
    let fails = match random.below(4) {
        0 => random.below(count.max(1)),
        1 => count.max(1) - 1,
        _ => count,
    };
    let mut rl = case.state.special[RL];
    let pairs = (0..count).map(|k| if k == fails { bad(random, rl) } else { good(random, &mut rl) }).collect();
    let tail = if random.one_in(2) { random.range(1, 15) } else { 0 };
    let tail = (0..tail).map(|_| random.byte()).collect();
    match random.below(4) {
        0 if case.image_len == IMAGE_LEN => case.image_len = OLD_IMAGE_LEN,
        1 | 2 => case.state.mask = random.any() & HIDEABLE,
        _ => {}
    }
    Set { case, pairs, tail }
}

/// The set by the Rust's PUT.
fn by_the_rust(reference: &mut Reference, state: &State, pairs: &[(u64, u64)]) -> Result<Told, String> {
    if !state.admissible() {
        return Ok((1, 0, state.clone()));
    }
    if pairs.len() > PAIRS_MAX {
        return Ok((30, 0, state.clone()));
    }
    let mut after = state.clone();
    for (place, (register, value)) in pairs.iter().enumerate() {
        let reply = match u8::try_from(*register) {
            Err(_) => 7,
            Ok(x) => {
                after.general[255] = *value;
                let put = Instruction { op: PUT, x, y: 0, z: 255 };
                let answer = reference.answer(&Case::none(Call::Step(put), after.clone()))?;
                after = answer.state;
                (after.general[255], after.pc) = (state.general[255], state.pc);
                answer.reply
            }
        };
        if reply != 0 {
            let mut left = state.clone();
            left.halt = 1;
            return Ok((reply, place as u64, left));
        }
    }
    Ok((0, 0, after))
}

/// What one subject says of a set, on the parts of a state and on an image.
fn compare(subject: &dyn Subject, set: &Set, told: &Told) -> Result<(), String> {
    const WRITTEN: u64 = 0xA5A5_A5A5_A5A5_A5A5;
    let mut octabytes: Vec<u64> = set.pairs.iter().flat_map(|(register, value)| [*register, *value]).collect();
    let mut bytes: Vec<u8> = octabytes.iter().flat_map(|v| v.to_be_bytes()).collect();
    bytes.extend(&set.tail);
    octabytes.extend((set.tail.len() > 7).then_some(RG as u64));

    let (mut state, mut place) = (set.case.state.clone(), WRITTEN);
    let reply = subject.put_set_parts((&mut state).into(), &octabytes, &mut place);
    if (reply, place) != (told.0, told.1) {
        return Err(format!("put_set_parts: reply {reply}, place {place} and not {}, {}", told.0, told.1));
    }
    if let Some(difference) = state.difference(&told.2) {
        return Err(format!("put_set_parts, reply {reply}: {difference}"));
    }

    let (mut image, mut place) = (set.case.image(), WRITTEN);
    let whole = is_image(image.len());
    let after = || told.2.image()[..image.len()].to_vec();
    let (wanted, left) = if whole { ((told.0, told.1), after()) } else { ((1, 0), image.clone()) };
    let reply = subject.put_set(&mut image, &bytes, &mut place);
    if (reply, place) != wanted {
        return Err(format!("put_set: reply {reply}, place {place} and not {}, {}", wanted.0, wanted.1));
    }
    if image != left {
        return Err(format!("put_set, reply {reply}, leaves another image"));
    }
    Ok(())
}

/// One set on each subject; what differs.
fn set(
    seed: u64,
    number: u64,
    reference: &mut Reference,
    subjects: &[Box<dyn Subject>],
    met: &mut Met,
) -> Result<(), String> {
    let set = drawn(&mut Random::new(seed.rotate_left(32), number));
    let at = format!("set {seed} {number}");
    let told = by_the_rust(reference, &set.case.state, &set.pairs).map_err(|e| format!("{e}\n{at}"))?;
    for subject in subjects {
        compare(subject.as_ref(), &set, &told).map_err(|e| format!("{}: {e}\n{at}", subject.name()))?;
    }
    met.count(&set, &told);
    Ok(())
}

/// So many sets.
pub fn sets(seed: u64, count: u64, subjects: &[Box<dyn Subject>]) -> (Met, Result<(), String>) {
    let (mut met, mut reference) = (Met::new(), Reference::new());
    let found = (0..count).try_for_each(|number| set(seed, number, &mut reference, subjects, &mut met));
    (met, found)
}

/// The set that a line names, again.
pub fn replay(line: &str, subjects: &[Box<dyn Subject>]) -> Option<Result<(), String>> {
    let mut words = line.strip_prefix("set ")?.split(' ');
    let (seed, number) = (words.next()?.parse().ok()?, words.next()?.parse().ok()?);
    Some(set(seed, number, &mut Reference::new(), subjects, &mut Met::new()))
}
