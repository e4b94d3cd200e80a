//! Several tasks on one machine: drawn calls. The Rust has no tasks: each turn is answered by the Rust as a run on A and the task's own part of B, lent as a window by
//! itself; where an instruction touches what is not lent, it is 32 if some of that lies in B, and else 6 or 24. Whose turn it is, parts that break a rule and the order of
//! refusals are judged here, apart from the model. Each call is made once more under masks, on states that differ in hidden registers.

use crate::case::{Call, Case};
use crate::lent::{Window, Windows};
use crate::model::tasks::{TASKS_MAX, TURN_MOST};
use crate::opcodes::UNSAVE;
use crate::programs;
use crate::random::Random;
use crate::reference::{Answer, GRANT_MOST, Reference};
use crate::state::*;
use crate::states;
use crate::subject::{Subject, Told};

const REPLIES: usize = 34;
/// What a call can answer as a whole.
const WHOLE: [usize; 6] = [0, 1, 2, 22, 25, 33];
/// What a task must have been refused by.
const STOPPED: [usize; 16] = [3, 4, 5, 6, 7, 8, 9, 12, 13, 14, 19, 20, 24, 29, 32, 0];
/// How often each reply and each situation must have been met.
const ENOUGH: u64 = 20;

/// A call: the tasks' states, how long each image is and how many bytes there are, parts as numbers, windows.
#[derive(Clone)]
struct Drawn {
    q: u64,
    grant: u64,
    states: Vec<State>,
    each: usize,
    images_len: usize,
    parts: Vec<u64>,
    windows: Windows,
}

/// What it answers and leaves.
#[derive(Clone, PartialEq)]
struct Left {
    reply: u64,
    counts: [u64; TASKS_MAX],
    refusals: [u64; TASKS_MAX],
    states: Vec<State>,
    windows: Windows,
    /// The instruction that 32 refuses touches another octabyte that is in neither window.
    mixed: bool,
}

type Situation = (&'static str, fn(&Drawn, &Left) -> bool);

const SITUATIONS: [Situation; 17] = [
    ("one task", |call, left| left.reply == 0 && call.parts.len() == 2),
    ("eight tasks", |call, left| left.reply == 0 && call.parts.len() == 16),
    ("nine tasks, or none", |call, left| left.reply == 33 && matches!(call.parts.len(), 0 | 18)),
    ("an odd length", |call, left| left.reply == 33 && call.parts.len() % 2 == 1),
    ("q is 0 or 1,001", |call, left| left.reply == 33 && matches!(call.q, 0 | 1001)),
    ("q is 1", |call, left| left.reply == 0 && call.q == 1 && left.counts.iter().sum::<u64>() > 8),
    ("q is 1,000", |call, left| left.reply == 0 && call.q == TURN_MOST),
    ("a part whose end wraps", |call, left| left.reply == 33 && call.parts.iter().any(|v| *v == 8u64.wrapping_neg())),
    ("an empty part that is fine", |call, left| left.reply == 0 && call.pairs().any(|(_, len)| len == 0)),
    ("an empty part at the end of B", |call, left| {
        left.reply == 0 && call.pairs().any(|(start, len)| len == 0 && start == call.windows.b.size())
    }),
    ("an empty part inside another", |call, left| {
        let inside =
            |(at, none): (u64, u64)| none == 0 && call.pairs().any(|(start, len)| start < at && at - start < len);
        left.reply == 0 && call.pairs().any(inside)
    }),
    ("the grant is spent", |call, left| {
        left.reply == 0 && call.grant > 0 && left.counts.iter().sum::<u64>() == call.grant
    }),
    ("all have stopped", |call, left| left.reply == 0 && left.refusals[..call.parts.len() / 2].iter().all(|r| *r != 0)),
    ("some stopped and the grant is spent", |call, left| {
        let stopped = left.refusals.iter().any(|r| *r != 0);
        left.reply == 0 && stopped && left.counts.iter().sum::<u64>() == call.grant && call.parts.len() > 2
    }),
    ("32 with another octabyte missing", |_, left| left.mixed),
    ("on old images", |call, left| left.reply == 0 && call.each == OLD_IMAGE_LEN),
    ("a wrong length of the images", |call, left| left.reply == 1 && call.images_len != call.each * call.states.len()),
];

/// How often each reply and each situation was met.
#[derive(Default)]
pub struct Met {
    calls: u64,
    instructions: u64,
    whole: Vec<u64>,
    stopped: Vec<u64>,
    situations: [u64; SITUATIONS.len()],
}

impl Met {
    fn new() -> Self {
        Self { whole: vec![0; REPLIES], stopped: vec![0; REPLIES], ..Self::default() }
    }

    pub fn calls(&self) -> u64 {
        self.calls
    }

    pub fn print(&self) {
        let line = |counts: &[u64]| {
            let met = (0..REPLIES).filter(|k| counts[*k] > 0).map(|k| format!("{k}: {}", counts[k]));
            met.collect::<Vec<_>>().join(", ")
        };
        println!("{:<14} {}; instructions done: {}", "tasks", line(&self.whole), self.instructions);
        println!("  stopped by {}", line(&self.stopped));
        SITUATIONS.iter().zip(self.situations).for_each(|((name, _), count)| println!("  {name}: {count}"));
    }

    pub fn seldom(&self) -> Vec<String> {
        let whole = WHOLE.iter().map(|k| (format!("tasks with reply {k}"), self.whole[*k]));
        let stopped = STOPPED.iter().map(|k| (format!("a task refused by {k}"), self.stopped[*k]));
        let situations = SITUATIONS.iter().zip(self.situations).map(|((name, _), n)| (format!("tasks, {name}"), n));
        let few = whole.chain(stopped).chain(situations).filter(|(_, count)| *count < ENOUGH);
        few.map(|(name, count)| format!("{name}: {count}")).collect()
    }

    fn count(&mut self, call: &Drawn, left: &Left) {
        self.calls += 1;
        self.instructions += left.counts.iter().sum::<u64>();
        self.whole[left.reply as usize] += 1;
        if left.reply == 0 {
            left.refusals[..call.parts.len() / 2].iter().for_each(|r| self.stopped[*r as usize] += 1);
        }
        for (count, (_, test)) in self.situations.iter_mut().zip(SITUATIONS) {
            *count += test(call, left) as u64;
        }
    }
}

impl Drawn {
    fn pairs(&self) -> impl Iterator<Item = (u64, u64)> + '_ {
        self.parts.chunks_exact(2).map(|pair| (pair[0], pair[1]))
    }

    /// The images, one after another, cut or filled to the length that is lent.
    fn images(&self) -> Vec<u8> {
        let mut images: Vec<u8> = self.states.iter().flat_map(|s| s.image()[..self.each].to_vec()).collect();
        images.resize(self.images_len, 0x5A);
        images
    }
}

/// Parts of B for so many tasks: side by side or with gaps, some empty, anywhere, in any order.
fn parts(random: &mut Random, count: u64, octabytes: u64) -> Vec<u64> {
    let mut cuts: Vec<u64> = (0..2 * count).map(|_| 8 * random.below(octabytes + 1)).collect();
    cuts.sort_unstable();
    if random.one_in(2) {
        // side by side, from end to end
        let last = cuts.len().saturating_sub(1);
        (1..last).step_by(2).for_each(|k| cuts[k] = cuts[k + 1]);
        if count > 0 {
            (cuts[0], cuts[last]) = (0, 8 * octabytes);
        }
    }
    let mut pairs: Vec<[u64; 2]> = cuts.chunks_exact(2).map(|cut| [cut[0], cut[1] - cut[0]]).collect();
    for k in (1..pairs.len()).rev() {
        pairs.swap(k, random.below(k as u64 + 1) as usize);
    }
    if random.one_in(6) && count > 1 {
        pairs[0] = [8 * random.below(octabytes + 1), 0];
    }
    pairs.concat()
}

/// Break one rule of the parts, or q's.
fn spoil(random: &mut Random, call: &mut Drawn) {
    let (count, size) = (call.parts.len() as u64 / 2, call.windows.b.size());
    if count == 0 {
        return;
    }
    let k = 2 * random.below(count) as usize;
    let j = 2 * random.below(count) as usize;
    match random.below(10) {
        0 => call.q = random.pick(&[0, 0, TURN_MOST + 1, TURN_MOST + 1, 1 << 32, u64::MAX]),
        1 => call.parts[k] += random.range(1, 7),
        2 => call.parts[k + 1] += random.range(1, 7),
        3 => (call.parts[k], call.parts[k + 1]) = (8u64.wrapping_neg(), random.pick(&[8, 16, 24])),
        4 => call.parts[k + 1] = size - call.parts[k].min(size) + 8,
        5 => (call.parts[k], call.parts[k + 1]) = (size + 8, 0),
        6 => call.parts.truncate(2 * count as usize - 1),
        7 => (call.parts[k], call.parts[k + 1]) = (call.parts[j], call.parts[j + 1]),
        8 => call.parts[k + 1] += 8,
        _ => call.parts[k] = call.parts[k].saturating_sub(8),
    }
}

/// Task k's state: as drawn with the program, often with its stack and data in its own part or at its edge.
fn placed(random: &mut Random, mut state: State, windows: &Windows, start: u64, len: u64) -> State {
    let base = windows.b.base.wrapping_add(start);
    let near = |random: &mut Random| match random.below(4) {
        0 => base.wrapping_add(len).wrapping_sub(8 * random.below(6)),
        1 => base.wrapping_sub(8 * random.below(3)),
        _ => base.wrapping_add(8 * random.below(len / 8 + 1)),
    };
    if !random.one_in(4) {
        state.special[RO] = near(random);
        if random.one_in(12) {
            state.special[RO] = state.special[RO].wrapping_add(random.range(1, 7));
        }
        state.special[RS] = state.special[RO];
    }
    if !random.one_in(4) {
        state.general[254] = near(random);
    }
    if random.one_in(4) {
        state.general[251] = near(random);
    }
    for k in 0..4 {
        if random.one_in(3) {
            state.general[k] = random.below(12);
        }
    }
    if random.one_in(3) {
        state.pc = state.pc.wrapping_add(4 * random.below(6));
    }
    state
}

fn drawn(random: &mut Random) -> Drawn {
    let Case { state, windows, .. } = programs::single(random);
    let count = match random.below(12) {
        0 => 1,
        1 | 2 => 8,
        3 if random.one_in(3) => random.pick(&[0, 9]),
        _ => random.range(2, 5),
    };
    let parts = parts(random, count, windows.b.size() / 8);
    let own = |k: usize| (parts[2 * k], parts[2 * k + 1]);
    let mut states: Vec<State> =
        (0..count as usize).map(|k| placed(random, state.clone(), &windows, own(k).0, own(k).1)).collect();
    if random.one_in(16) && count > 0 {
        let mut case = Case::none(Call::Initialize, state);
        states::spoil(random, &mut case);
        states[random.below(count) as usize] = case.state;
    }
    let each = random.pick(&[IMAGE_LEN, IMAGE_LEN, OLD_IMAGE_LEN]);
    let mut images_len = each * states.len();
    if random.one_in(24) {
        let other = if each == IMAGE_LEN { OLD_IMAGE_LEN } else { IMAGE_LEN };
        let lengths = [
            0,
            images_len + 1,
            images_len + 8,
            images_len + each,
            images_len.saturating_sub(8),
            images_len.max(other) - each + other,
        ];
        images_len = Some(random.pick(&lengths)).filter(|len| *len != other * states.len()).unwrap_or(images_len);
    }
    let q = random.pick(&[1, 1, 2, 3, 7, 40, TURN_MOST, TURN_MOST]);
    let grant = match random.below(20) {
        0 => random.pick(&[0, 1]),
        1 => random.pick(&[GRANT_MOST + 1, 1 << 32, u64::MAX]),
        2 => random.range(100, 300),
        _ => random.range(1, 60),
    };
    let mut call = Drawn { q, grant, states, each, images_len, parts, windows };
    if random.one_in(6) {
        spoil(random, &mut call);
    }
    call
}

/// 33, octabyte by octabyte: which task has each of B's.
fn breaks_a_rule(call: &Drawn) -> bool {
    let count = call.parts.len() / 2;
    if call.parts.len() % 2 == 1 || count == 0 || count > 8 || call.q == 0 || call.q > 1000 {
        return true;
    }
    let mut owner = vec![false; call.windows.b.bytes.len() / 8];
    for (start, len) in call.pairs() {
        let beyond = start > call.windows.b.size() || len > call.windows.b.size() - start;
        if start % 8 != 0 || len % 8 != 0 || beyond {
            return true;
        }
        for octabyte in &mut owner[start as usize / 8..(start + len) as usize / 8] {
            if std::mem::replace(octabyte, true) {
                return true;
            }
        }
    }
    false
}

/// The octabytes that the instruction which stopped a task asked for. Where UNSAVE's count is missing the Rust reads on, which 01's step does not.
fn asked(reference: &mut Reference, lent: &Case) -> Result<Vec<u64>, String> {
    let mut once = lent.clone();
    once.call = Call::Run { grant: 1 };
    let Answer { touched, ran, .. } = reference.answer(&once)?;
    let Some(unsave) = ran.last().filter(|fetched| fetched.i.op == UNSAVE) else { return Ok(touched) };
    let packed = lent.state.general[unsave.i.z as usize];
    let Some(octabyte) = lent.windows.octabyte_at(packed) else { return Ok(vec![packed & !7]) };
    let count = packed.wrapping_sub(8 * (269 - (octabyte >> 56)));
    Ok(if lent.windows.holds(count) { touched } else { vec![count & !7] })
}

/// A turn of the Rust's on A and a part of B; the count, and whether 32 was given with an octabyte missing.
fn turn(
    reference: &mut Reference,
    state: &mut State,
    windows: &mut Windows,
    (start, len): (u64, u64),
    grant: u64,
) -> Result<(u64, u64, bool), String> {
    let bytes = start as usize..(start + len) as usize;
    let own = Window { base: windows.b.base.wrapping_add(start), bytes: windows.b.bytes[bytes.clone()].to_vec() };
    let mut lent = Case::new(Call::Run { grant }, state.clone(), Windows { a: windows.a.clone(), b: own });
    let answer = reference.answer(&lent)?;
    (lent.state, lent.windows) = (answer.state, answer.windows);
    let (mut reply, mut mixed) = (answer.reply, false);
    if matches!(reply, 6 | 24) {
        let asked = asked(reference, &lent)?;
        if asked.iter().any(|a| windows.b.holds(*a) && !lent.windows.holds(*a)) {
            reply = 32;
            mixed = asked.iter().any(|a| !windows.holds(*a));
        }
    }
    *state = lent.state;
    windows.a = lent.windows.a;
    windows.b.bytes[bytes].copy_from_slice(&lent.windows.b.bytes);
    Ok((answer.done, reply, mixed))
}

/// The call by the Rust's runs.
fn by_the_rust(reference: &mut Reference, call: &Drawn) -> Result<Left, String> {
    let (states, windows) = (call.states.clone(), call.windows.clone());
    let mut left = Left { reply: 0, counts: [0; 8], refusals: [0; 8], states, windows, mixed: false };
    let judged = Case::new(Call::Run { grant: 0 }, fine(), call.windows.clone());
    left.reply = reference.answer(&judged)?.reply;
    let wrong_length = call.images_len != call.each * call.states.len();
    left.reply = match left.reply {
        0 if call.grant > GRANT_MOST => 25,
        0 if breaks_a_rule(call) => 33,
        0 if wrong_length || !call.states.iter().all(State::admissible) => 1,
        reply => reply,
    };
    if left.reply != 0 {
        return Ok(left);
    }
    let (own, mut rest): (Vec<_>, _) = (call.pairs().collect(), call.grant);
    let mut waiting: std::collections::VecDeque<usize> = (0..own.len()).collect();
    while rest > 0
        && let Some(k) = waiting.pop_front()
    {
        let grant = call.q.min(rest);
        let (done, reply, mixed) = turn(reference, &mut left.states[k], &mut left.windows, own[k], grant)?;
        (left.counts[k], left.refusals[k], rest) = (left.counts[k] + done, reply, rest - done);
        left.mixed |= mixed;
        if reply == 0 {
            waiting.push_back(k);
        }
    }
    Ok(left)
}

/// A state that 1 does not refuse.
fn fine() -> State {
    let mut state = State::zero();
    state.special[RG] = 32;
    state
}

/// What one subject answers and leaves; the images as bytes.
fn done(subject: &dyn Subject, call: &Drawn) -> (u64, [u64; 8], [u64; 8], Vec<u8>, Windows) {
    const WRITTEN: u64 = 0xA5A5_A5A5_A5A5_A5A5;
    let (mut images, mut windows) = (call.images(), call.windows.clone());
    let (mut counts, mut refusals) = ([WRITTEN; 8], [WRITTEN; 8]);
    let told = Told { counts: &mut counts, refusals: &mut refusals };
    let reply = subject.tasks(call.q, call.grant, &mut images, &call.parts, windows.lend(), told);
    (reply, counts, refusals, images, windows)
}

fn compare(subject: &dyn Subject, call: &Drawn, left: &Left) -> Result<(), String> {
    let (reply, counts, refusals, images, windows) = done(subject, call);
    if reply != left.reply {
        return Err(format!("tasks: reply {reply} and not {}", left.reply));
    }
    if (counts, refusals) != (left.counts, left.refusals) {
        return Err(format!("tasks: {counts:?}, {refusals:?} and not {:?}, {:?}", left.counts, left.refusals));
    }
    let wanted = Drawn { states: left.states.clone(), ..call.clone() }.images();
    for (k, (image, other)) in images.chunks(call.each).zip(wanted.chunks(call.each)).enumerate() {
        if image != other {
            let states = is_image(image.len()).then(|| State::of_image(image).difference(&State::of_image(other)));
            return Err(format!("tasks, reply {reply}: task {k}, {:?}", states.flatten()));
        }
    }
    if windows != left.windows {
        return Err(format!("tasks, reply {reply}: other windows"));
    }
    Ok(())
}

/// The call under masks, on states that differ in hidden registers.
fn unseen(subject: &dyn Subject, call: &Drawn, random: &mut Random) -> Result<(), String> {
    let mut call = call.clone();
    call.states.iter_mut().for_each(|state| state.mask = random.any() & HIDEABLE);
    let hidden = |state: &State, k: usize| state.hides(k as u8);
    let mut other = call.clone();
    for state in &mut other.states {
        (0..32).filter(|k| state.mask >> k & 1 == 1).for_each(|k| state.special[k] = random.value());
    }
    let (one, mut two) = (done(subject, &call), done(subject, &other));
    for (k, state) in call.states.iter().enumerate() {
        for register in (0..32).filter(|r| hidden(state, *r)) {
            let at = k * IMAGE_LEN + 2048 + 8 * register;
            two.3[at..at + 8].copy_from_slice(&one.3[at..at + 8]);
        }
    }
    if one != two { Err("tasks: what is hidden is seen".to_string()) } else { Ok(()) }
}

/// One call on each subject; what differs.
fn call(
    seed: u64,
    number: u64,
    reference: &mut Reference,
    subjects: &[Box<dyn Subject>],
    met: &mut Met,
) -> Result<(), String> {
    let mut random = Random::new(seed.rotate_left(48), number);
    let call = drawn(&mut random);
    let at = format!("tasks {seed} {number}");
    let left = by_the_rust(reference, &call).map_err(|e| format!("{e}\n{at}"))?;
    for subject in subjects {
        let subject = subject.as_ref();
        let differs = |e: String| format!("{}: {e}\n{at}", subject.name());
        compare(subject, &call, &left).map_err(differs)?;
        if left.reply == 0 && call.each == IMAGE_LEN {
            unseen(subject, &call, &mut random).map_err(differs)?;
        }
    }
    met.count(&call, &left);
    Ok(())
}

/// So many calls.
pub fn tasks(seed: u64, count: u64, subjects: &[Box<dyn Subject>]) -> (Met, Result<(), String>) {
    let (mut met, mut reference) = (Met::new(), Reference::new());
    let found = (0..count).try_for_each(|number| call(seed, number, &mut reference, subjects, &mut met));
    (met, found)
}

/// The call that a line names, again.
pub fn replay(line: &str, subjects: &[Box<dyn Subject>]) -> Option<Result<(), String>> {
    let mut words = line.strip_prefix("tasks ")?.split(' ');
    let (seed, number) = (words.next()?.parse().ok()?, words.next()?.parse().ok()?);
    Some(call(seed, number, &mut Reference::new(), subjects, &mut Met::new()))
}
