//! Frames and saved contexts: PUSH, POP, SAVE, UNSAVE and what the context reader finds.

use std::ops::Range;

use super::memory::{Memory, Which, octabyte_of, run};
use super::{Changes, Outcome};
use crate::state::*;

/// The twelve specials of a saved context, in order.
const SAVED: [usize; 12] = [RB, RD, RE, RH, RJ, RM, RR, RP, RW, RX, RY, RZ];

/// PUSH and go to `target`.
pub fn push(state: &State, x: u8, target: u64, memory: &Memory) -> Outcome {
    let (rg, rl, ro) = (state.special[RG], state.special[RL], state.special[RO]);
    let hole = if x as u64 >= rg { rl } else { x as u64 };

    let frame = run(ro, hole + 1);
    let missing = memory.missing(&frame);
    if !missing.is_empty() {
        return Outcome::missing(state, missing);
    }
    let mut values = state.general[..hole as usize].to_vec();
    values.push(hole);

    let mut after = state.clone();
    let kept = rl.saturating_sub(hole + 1);
    for i in 0..rg {
        after.general[i as usize] = if i < kept { state.general[(hole + 1 + i) as usize] } else { 0 };
    }
    after.special[RL] = kept;
    after.special[RO] = ro.wrapping_add(8 * (hole + 1));
    after.special[RS] = after.special[RO];
    after.special[RJ] = state.pc.wrapping_add(4);
    Outcome { reply: 0, state: after.go_to(target), stores: frame.iter().copied().zip(values).collect(), needs: frame }
}

/// General registers, read and written one at a time.
pub trait Registers {
    fn read(&self, k: u64) -> u64;
    fn write(&mut self, k: u64, value: u64);
}

impl Registers for [u64; 256] {
    fn read(&self, k: u64) -> u64 {
        self[k as usize]
    }

    fn write(&mut self, k: u64, value: u64) {
        self[k as usize] = value;
    }
}

/// What a POP with a frame goes by: its X, rL and rG before it, the hole, and $0 to $(H−1) as read back, those below rG.
pub struct Popped {
    pub x: u64,
    pub rl: u64,
    pub rg: u64,
    pub hole: u64,
    pub locals: Vec<u64>,
}

impl Popped {
    /// X, or rL + 1 with a zero hole if X > rL.
    fn count(&self) -> u64 {
        if self.x > self.rl { self.rl + 1 } else { self.x }
    }

    pub fn new_rl(&self) -> u64 {
        (self.hole + self.count()).min(self.rg)
    }

    /// The outputs and the restored locals, below rG. The outputs go up, the last of them first, for they may overlap their
    /// sources; with no outputs the hole is not written.
    pub fn restored_first(&self, registers: &mut impl Registers) {
        let Self { x, rl, rg, hole, ref locals } = *self;
        let last = if (1..=rl).contains(&x) { registers.read(x - 1) } else { 0 };
        for from in (0..self.count().saturating_sub(1)).rev() {
            if hole + 1 + from < rg {
                let output = registers.read(from);
                registers.write(hole + 1 + from, output);
            }
        }
        if self.count() > 0 && hole < rg {
            registers.write(hole, last);
        }
        for (k, local) in locals.iter().enumerate() {
            registers.write(k as u64, *local);
        }
    }

    /// And then all from the new rL to rG − 1.
    pub fn cleared_after(&self, registers: &mut impl Registers) {
        (self.new_rl()..self.rg).for_each(|k| registers.write(k, 0));
    }
}

pub fn pop(state: &State, x: u8, yz: u64, memory: &Memory) -> Outcome {
    let (rg, rl, ro) = (state.special[RG], state.special[RL], state.special[RO]);
    if ro <= STACK_START {
        return Outcome::refused(29, state);
    }
    if ro % 8 != 0 || ro >= 0x8000_0000_0000_0000 {
        return Outcome::refused(12, state);
    }

    let below = ro - 8;
    if !memory.holds(below) {
        return Outcome::missing(state, vec![below]);
    }
    let hole = memory.read(below) % 256;
    let first = ro.wrapping_sub(8 * (hole + 1));
    let locals = run(first, hole.min(rg));
    let mut missing = memory.missing(&locals);
    if !missing.is_empty() {
        missing.push(below);
        return Outcome::missing(state, missing);
    }

    let popped = Popped { x: x as u64, rl, rg, hole, locals: locals.iter().map(|a| memory.read(*a)).collect() };
    let mut after = state.clone();
    popped.restored_first(&mut after.general);
    popped.cleared_after(&mut after.general);
    after.special[RL] = popped.new_rl();
    after.special[RO] = first;
    after.special[RS] = first;
    let mut needs = locals;
    needs.push(below);
    let target = state.special[RJ].wrapping_add(4 * yz);
    Outcome::done(after.go_to(target)).with_needs(needs)
}

pub fn save(state: &State, x: u8, memory: &Memory) -> Outcome {
    let (rg, rl, ro) = (state.special[RG], state.special[RL], state.special[RO]);
    if (x as u64) < rg {
        return Outcome::refused(13, state);
    }
    let mut values = state.general[..rl as usize].to_vec();
    values.push(rl);
    values.extend_from_slice(&state.general[rg as usize..]);
    values.extend(SAVED.map(|r| state.special[r]));
    values.push((rg << 56) + state.special[RA]);

    let n = rl + 270 - rg;
    assert_eq!(n, values.len() as u64);
    let context = run(ro, n);
    let missing = memory.missing(&context);
    if !missing.is_empty() {
        return Outcome::missing(state, missing);
    }

    let last = ro.wrapping_add(8 * (n - 1));
    let mut after = state.clone();
    after.general[..rg as usize].fill(0);
    after.general[x as usize] = last;
    after.special[RL] = 0;
    after.special[RO] = last.wrapping_add(8);
    after.special[RS] = after.special[RO];
    let stores = context.iter().copied().zip(values).collect();
    Outcome { reply: 0, state: after.go_on(), stores, needs: context }
}

/// A saved context that passed every check.
pub struct Context {
    /// The packed octabyte's address as given, low bits kept.
    packed: u64,
    rg: u64,
    ra: u64,
    rl: u64,
}

impl Context {
    /// rL + 270 − rG.
    pub fn octabytes(&self) -> u64 {
        self.rl + 270 - self.rg
    }

    /// The address of the k-th octabyte from the first local.
    fn at(&self, k: u64) -> u64 {
        self.packed.wrapping_sub(8 * (self.octabytes() - 1)).wrapping_add(8 * k)
    }

    pub fn first(&self) -> u64 {
        self.at(0)
    }

    /// The window that has all of it, and which part of that it is; none where it lies across both.
    pub fn part(&self, memory: &Memory) -> Option<(Which, Range<usize>)> {
        let which = memory.which(self.first())?;
        let start = memory.place(which, self.first());
        let whole = (0..self.octabytes()).all(|k| memory.which(self.at(k)) == Some(which));
        whole.then_some((which, start..start + 8 * self.octabytes() as usize))
    }
}

/// The checks in their order: 6, 14, 15, 6, 16, 6. A refusal has its number and the octabytes needed for it.
pub fn find_context(memory: &Memory, packed: u64) -> Result<Context, (u64, Vec<u64>)> {
    if !memory.holds(packed) {
        return Err((6, vec![octabyte_of(packed)]));
    }
    let mut needs = vec![octabyte_of(packed)];
    let octabyte = memory.read(packed);
    let (rg, ra) = (octabyte / (1 << 56), octabyte % (1 << 56));
    if !(32..=255).contains(&rg) {
        return Err((14, needs));
    }
    if ra > RA_MAX {
        return Err((15, needs));
    }
    let marker = packed.wrapping_sub(8 * (12 + (256 - rg) + 1));
    needs.push(octabyte_of(marker));
    if !memory.holds(marker) {
        return Err((6, needs));
    }
    let rl = memory.read(marker);
    if rl > rg {
        return Err((16, needs));
    }
    let context = Context { packed, rg, ra, rl };
    let missing = memory.missing(&run(context.first(), context.octabytes()));
    if !missing.is_empty() {
        needs.extend(missing);
        return Err((6, needs));
    }
    Ok(context)
}

pub fn unsave(state: &State, packed: u64, memory: &Memory) -> Outcome {
    let context = match find_context(memory, packed) {
        Err((reply, needs)) => return Outcome::refused(reply, state).with_needs(needs),
        Ok(context) => context,
    };
    let values: Vec<u64> = (0..context.octabytes()).map(|k| memory.read(context.at(k))).collect();
    let (locals, rest) = values.split_at(context.rl as usize);
    let (globals, specials) = rest[1..].split_at(256 - context.rg as usize);

    let mut after = state.clone();
    after.general.fill(0);
    after.general[..locals.len()].copy_from_slice(locals);
    after.general[context.rg as usize..].copy_from_slice(globals);
    for (register, value) in SAVED.iter().zip(specials) {
        after.special[*register] = *value;
    }
    after.special[RG] = context.rg;
    after.special[RA] = context.ra;
    after.special[RL] = context.rl;
    after.special[RO] = context.first();
    after.special[RS] = context.first();
    Outcome::done(after.go_on()).with_needs(run(context.first(), context.octabytes()))
}
