//! Document 01 as a program, written from its sentences and not from the Rust. This file has the entries and
//! what they judge; `memory` the two windows, `stack` frames and contexts, `loads` loads and stores and `arithmetic` whole-number
//! arithmetic (Fascicle 1), `arms` the other steps; `runs` instructions that are fetched; `fields` which field reaches an address;
//! `points` points to return to; `sets` sets of special registers; `tasks` several tasks on one machine.

mod arithmetic;
mod arms;
mod fields;
mod loads;
mod memory;
pub mod points;
mod runs;
pub mod sets;
mod stack;
pub mod tasks;

use crate::case::{Instruction, Kind};
use crate::lent::{Bases, Lent, Shown, Windows};
use crate::state::{RG, RK, RL, RN, RO, RS, RT, RTT, RV, STACK_START, State, is_image, octabyte};
use crate::subject::{Aim, Found, Parts, Subject, Told};
use memory::Memory;
pub use stack::{Popped, Registers};

/// What a step leaves: the reply, the state, the octabytes stored (address and value) and those needed.
struct Outcome {
    reply: u64,
    state: State,
    stores: Vec<(u64, u64)>,
    needs: Vec<u64>,
}

impl Outcome {
    /// Done, with no octabyte of memory in play.
    fn done(state: State) -> Self {
        Self { reply: 0, state, stores: Vec::new(), needs: Vec::new() }
    }

    /// Numbers 1 to 6, 22, 24 and 32 change nothing, 7 to 18, 29 and 31 set the halt code to 1.
    fn refused(reply: u64, state: &State) -> Self {
        let mut state = state.clone();
        if matches!(reply, 7..=18 | 29 | 31) {
            state.halt = 1;
        }
        Self { reply, state, stores: Vec::new(), needs: Vec::new() }
    }

    /// 19 and 20: the registers are set and the halt code is 1.
    fn halted(reply: u64, mut state: State) -> Self {
        state.halt = 1;
        Self { reply, state, stores: Vec::new(), needs: Vec::new() }
    }

    /// A needed octabyte lies in neither window: 6.
    fn missing(state: &State, needs: Vec<u64>) -> Self {
        Self { needs, ..Self::refused(6, state) }
    }

    fn with_needs(self, needs: Vec<u64>) -> Self {
        Self { needs, ..self }
    }
}

/// What steps do to a state.
trait Changes {
    /// Make a marginal register a local one: it and those below it that are marginal become 0.
    fn claim(&mut self, x: u8);
    /// Write $X: a marginal register is claimed first.
    fn write_register(&mut self, x: u8, value: u64);
    fn go_to(self, pc: u64) -> Self;
    /// Any step not said to go elsewhere goes to @ + 4.
    fn go_on(self) -> Self;
}

impl Changes for State {
    fn claim(&mut self, x: u8) {
        let (rl, rg, at) = (self.special[RL], self.special[RG], x as u64);
        if rl <= at && at < rg {
            self.general[rl as usize..=at as usize].fill(0);
            self.special[RL] = at + 1;
        }
    }

    fn write_register(&mut self, x: u8, value: u64) {
        self.claim(x);
        self.general[x as usize] = value;
    }

    fn go_to(mut self, pc: u64) -> Self {
        self.pc = pc;
        self
    }

    fn go_on(self) -> Self {
        let pc = self.pc.wrapping_add(4);
        self.go_to(pc)
    }
}

/// The fresh state.
fn fresh() -> State {
    let mut state = State::zero();
    state.special[RG] = 32;
    state.special[RL] = 0;
    state.special[RO] = STACK_START;
    state.special[RS] = STACK_START;
    state.special[RN] = 2009;
    state.special[RK] = u64::MAX;
    state.special[RT] = 0x8000_0005_0000_0000;
    state.special[RTT] = 0x8000_0006_0000_0000;
    state.special[RV] = 0x369C_2004_0000_0000;
    state
}

/// What is wrong with the windows: 2, one of them breaks its rule; 22, they share an octabyte.
fn judged(memory: &Memory) -> Option<u64> {
    if !memory.obeys() {
        return Some(2);
    }
    memory.shares().then_some(22)
}

/// Whether the opcode has an arm: whether a step of it, in the fresh state and with nothing lent, is anything but 3.
pub fn has_arm(op: u8) -> bool {
    step(Bases { a: 0, b: 0 }, Instruction { op, x: 0, y: 0, z: 0 }, &fresh(), &[], &[]).reply != 3
}

/// Judge 1, 2 and 22, then do the step.
fn step(at: Bases, i: Instruction, state: &State, a: &[u8], b: &[u8]) -> Outcome {
    let memory = Memory::of(at, a, b);
    if !state.admissible() {
        return Outcome::refused(1, state);
    }
    match judged(&memory) {
        Some(reply) => Outcome::refused(reply, state),
        None => arms::step(state, i, &memory),
    }
}

/// An image keeps its length: the mask is left out of an old one, whose state has none.
fn put_into(image: &mut [u8], state: &State) {
    image.copy_from_slice(&state.image()[..image.len()]);
}

pub struct Model;

impl Subject for Model {
    fn name(&self) -> &'static str {
        "model"
    }

    fn initialize(&self, image: &mut [u8]) -> u64 {
        self.initialize_at(image, STACK_START)
    }

    fn initialize_at(&self, image: &mut [u8], stack_start: u64) -> u64 {
        if !is_image(image.len()) {
            return 1;
        }
        let mut state = fresh();
        state.special[RO] = stack_start;
        state.special[RS] = stack_start;
        put_into(image, &state);
        0
    }

    fn step(&self, i: Instruction, image: &mut [u8], lent: Lent) -> u64 {
        if !is_image(image.len()) {
            return 1;
        }
        let mut state = State::of_image(image);
        let reply = self.step_lent(i, &mut state, lent);
        put_into(image, &state);
        reply
    }

    fn exceptions(&self, flags: u8, of: Instruction, y_val: u64, z_val: u64, image: &mut [u8]) -> u64 {
        if !is_image(image.len()) {
            return 1;
        }
        let mut state = State::of_image(image);
        let reply = self.exceptions_parts(flags, of, y_val, z_val, (&mut state).into());
        put_into(image, &state);
        reply
    }

    fn context(&self, address: u64, shown: Shown, found: Found) -> u64 {
        (*found.which, *found.start, *found.length) = (0, 0, 0);
        let memory = Memory::of(shown.at, shown.a, shown.b);
        if let Some(reply) = judged(&memory) {
            return reply;
        }
        match stack::find_context(&memory, address) {
            Err((reply, _)) => reply,
            Ok(context) => match context.part(&memory) {
                None => 23,
                Some((which, part)) => {
                    *found.which = (which == memory::Which::B) as u64;
                    (*found.start, *found.length) = (part.start, part.len());
                    0
                }
            },
        }
    }

    fn step_lent(&self, i: Instruction, state: &mut State, lent: Lent) -> u64 {
        let outcome = step(lent.at, i, state, lent.a, lent.b);
        *state = outcome.state;
        memory::apply(&outcome.stores, lent);
        outcome.reply
    }

    fn step_parts(&self, i: Instruction, parts: Parts, lent: Lent) -> u64 {
        let Parts { general, special, pc, halt, marks, mask } = parts;
        let mut state = State { general: *general, special: *special, pc: *pc, halt: *halt, marks, mask };
        let reply = self.step_lent(i, &mut state, lent);
        (*general, *special, *pc, *halt) = (state.general, state.special, state.pc, state.halt);
        reply
    }

    fn run(&self, grant: u64, image: &mut [u8], lent: Lent, done: &mut u64) -> u64 {
        *done = 0;
        if !is_image(image.len()) {
            return 1;
        }
        let mut state = State::of_image(image);
        let reply = self.run_parts(grant, (&mut state).into(), lent, done);
        put_into(image, &state);
        reply
    }

    fn run_parts(&self, grant: u64, parts: Parts, lent: Lent, done: &mut u64) -> u64 {
        let Parts { general, special, pc, halt, marks, mask } = parts;
        let mut state = State { general: *general, special: *special, pc: *pc, halt: *halt, marks, mask };
        let ran = runs::run(grant, &mut state, lent);
        (*general, *special, *pc, *halt) = (state.general, state.special, state.pc, state.halt);
        *done = ran.done;
        ran.reply
    }

    fn exceptions_parts(&self, flags: u8, of: Instruction, y_val: u64, z_val: u64, parts: Parts) -> u64 {
        let Parts { general, special, pc, halt, marks, mask } = parts;
        let state = State { general: *general, special: *special, pc: *pc, halt: *halt, marks, mask };
        if !state.admissible() {
            return 1;
        }
        let Outcome { reply, state, .. } = arms::exceptions(&state, flags, of, y_val, z_val);
        (*general, *special, *pc, *halt) = (state.general, state.special, state.pc, state.halt);
        reply
    }

    fn tasks(&self, q: u64, grant: u64, images: &mut [u8], parts: &[u64], lent: Lent, told: Told) -> u64 {
        let each = images.len() / (parts.len() / 2).max(1);
        let whole = is_image(each) && images.len() == each * (parts.len() / 2);
        let mut states = whole.then(|| images.chunks_exact(each).map(State::of_image).collect::<Vec<_>>());
        let tasked = tasks::call(q, grant, states.as_mut(), parts, lent);
        for (image, state) in images.chunks_exact_mut(each.max(1)).zip(states.iter().flatten()) {
            put_into(image, state);
        }
        (*told.counts, *told.refusals) = (tasked.counts, tasked.refusals);
        tasked.reply
    }

    fn put_set(&self, image: &mut [u8], pairs: &[u8], place: &mut u64) -> u64 {
        *place = 0;
        if !is_image(image.len()) {
            return 1;
        }
        let octabytes: Vec<u64> = pairs.chunks_exact(8).map(octabyte).collect();
        let mut state = State::of_image(image);
        let reply = self.put_set_parts((&mut state).into(), &octabytes, place);
        put_into(image, &state);
        reply
    }

    fn put_set_parts(&self, parts: Parts, pairs: &[u64], place: &mut u64) -> u64 {
        let Parts { general, special, pc, halt, marks, mask } = parts;
        let pairs: Vec<(u64, u64)> = pairs.chunks_exact(2).map(|pair| (pair[0], pair[1])).collect();
        let state = State { general: *general, special: *special, pc: *pc, halt: *halt, marks, mask };
        let (reply, failing, state) = sets::put(&state, &pairs);
        (*general, *special, *pc, *halt, *place) = (state.general, state.special, state.pc, state.halt, failing);
        reply
    }

    fn decode(&self, image: &[u8], state: &mut State) -> u64 {
        if !is_image(image.len()) {
            return 1;
        }
        *state = State::of_image(image);
        0
    }

    fn encode(&self, state: &State, image: &mut [u8]) -> u64 {
        if !state.fits(image.len()) {
            return 1;
        }
        put_into(image, state);
        0
    }

    fn field(&self, kind: Kind, from: u64, to: u64, aim: Aim) -> u64 {
        let found = fields::find(kind.size(), from, to);
        (*aim.backward, *aim.field) = found.map_or((0, 0), |(backward, field)| (backward as u8, field));
        if found.is_some() { 0 } else { 21 }
    }

    fn take(&self, name: u64, image: &[u8], shown: Shown, store: &mut [u8]) -> u64 {
        if !is_image(image.len()) || !State::of_image(image).admissible() {
            return 1;
        }
        if let Some(reply) = judged(&Memory::of(shown.at, shown.a, shown.b)) {
            return reply;
        }
        match points::room_at(name, store) {
            Err(reply) => reply,
            Ok(at) => {
                points::fill(&mut store[at..], [shown.at.a, shown.at.b], image, shown.a, shown.b);
                0
            }
        }
    }

    fn go_back(&self, name: u64, image: &mut [u8], lent: Lent, store: &[u8]) -> u64 {
        if !is_image(image.len()) {
            return 1;
        }
        if let Some(reply) = judged(&Memory::of(lent.at, lent.a, lent.b)) {
            return reply;
        }
        match points::room_at(name, store) {
            Err(reply) => reply,
            Ok(at) => points::restore(&store[at..], [lent.at.a, lent.at.b], image, lent.a, lent.b),
        }
    }
}

/// The octabytes that a step needs: in any order, each once.
pub fn needs(i: Instruction, state: &State, windows: &Windows) -> Vec<u64> {
    step(windows.at(), i, state, &windows.a.bytes, &windows.b.bytes).needs
}

/// The octabytes that a run needs, each instruction's fetch among them: in any order, each at least once.
pub fn run_needs(grant: u64, state: &State, windows: &Windows) -> Vec<u64> {
    runs::run(grant, &mut state.clone(), windows.clone().lend()).needs
}
