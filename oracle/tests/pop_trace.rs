//! The order of work of a POP, register write by register write, on the model: restored locals and outputs first, then the
//! clearing from the new rL to rG − 1. What is final is the Rust's.

use std::ops::Range;

use crate::common::{special, start, step};
use oracle::model::{Popped, Registers};
use oracle::opcodes::POP;
use oracle::random::Random;
use oracle::state::*;

/// Registers that keep every write, in order.
#[derive(Clone)]
struct Traced {
    general: [u64; 256],
    writes: Vec<(u64, u64)>,
}

impl Registers for Traced {
    fn read(&self, k: u64) -> u64 {
        self.general[k as usize]
    }

    fn write(&mut self, k: u64, value: u64) {
        self.general[k as usize] = value;
        self.writes.push((k, value));
    }
}

type Stage = fn(&Popped, &mut Traced);

const STAGES: [Stage; 2] = [Popped::restored_first, Popped::cleared_after];

/// A POP, the general registers before it and those that the Rust leaves, and its rL.
struct Pop {
    popped: Popped,
    before: [u64; 256],
    last: [u64; 256],
    new_rl: u64,
}

impl Pop {
    /// Run a drawn POP on the Rust, the library where it is linked, and the model.
    fn drawn(random: &mut Random, [rg, rl, x, hole]: [u64; 4]) -> Self {
        let mut case = start();
        case.state.general.fill_with(|| random.any() | 1);
        case.windows.b.bytes = (0..=hole).flat_map(|_| (random.any() | 1).to_be_bytes()).collect();
        let at = 8 * hole as usize;
        case.windows.b.bytes[at..].copy_from_slice(&(random.any() << 8 | hole).to_be_bytes());
        (case.state.special[RG], case.state.special[RL]) = (rg, rl);
        case.state.special[RO] = STACK_START + 8 * (hole + 1);
        let locals = case.windows.b.bytes.chunks_exact(8).take(hole.min(rg) as usize).map(octabyte).collect();
        let (popped, before) = (Popped { x, rl, rg, hole, locals }, case.state.general);
        assert_eq!(step(&mut case, POP, x as u8, 0, 0).reply, 0);
        Self { popped, before, last: case.state.general, new_rl: special(&case, RL) }
    }

    /// The registers that are cleared.
    fn cleared(&self) -> Range<u64> {
        self.new_rl..self.popped.rg
    }

    /// What is wrong with two stages, if anything is.
    fn judged(&self, stages: [Stage; 2]) -> Result<(), String> {
        let mut traced = Traced { general: self.before, writes: Vec::new() };
        stages[0](&self.popped, &mut traced);
        let (between, first) = (traced.general, std::mem::take(&mut traced.writes));
        stages[1](&self.popped, &mut traced);
        let second = &traced.writes;

        let no_outputs = self.popped.x == 0;
        if no_outputs && first.iter().any(|(k, _)| *k == self.popped.hole) {
            return Err("the hole is written first, with no outputs".to_string());
        }
        for k in 0..256 {
            let (what, wanted) = match self.cleared().contains(&k) {
                true => ("as before", self.before[k as usize]),
                false => ("final", self.last[k as usize]),
            };
            if between[k as usize] != wanted {
                return Err(format!("between the two, ${k} is not {what}"));
            }
        }
        let zeros: Vec<(u64, u64)> = self.cleared().map(|k| (k, 0)).collect();
        let mut cleared = second.clone();
        cleared.sort_unstable();
        if cleared != zeros {
            return Err(format!("afterwards {:?} is to be cleared, once each: {second:x?}", self.cleared()));
        }
        if traced.general != self.last {
            return Err("the state after is another".to_string());
        }
        once(self, first.iter().chain(second))
    }
}

/// No register is written twice, none goes to zero and comes back, none at or above rG is written.
fn once<'a>(pop: &Pop, writes: impl Iterator<Item = &'a (u64, u64)>) -> Result<(), String> {
    let mut written = [false; 256];
    for (k, value) in writes {
        let at = *k as usize;
        if written[at] {
            return Err(format!("${k} is written twice"));
        }
        if *value == 0 && pop.last[at] != 0 {
            return Err(format!("${k} goes to zero and comes back"));
        }
        if *k >= pop.popped.rg {
            return Err(format!("${k} is not below rG"));
        }
        written[at] = true;
    }
    Ok(())
}

/// rL at its limits, X at its turns, every hole.
fn every(thresholds: &[u64], mut run: impl FnMut(&Pop)) {
    let mut random = Random::new(4, 0);
    for &rg in thresholds {
        for rl in [0, 1, 2, rg / 2, rg - 1, rg] {
            let mut turns =
                vec![0, 1, 2, 3, rl.saturating_sub(1), rl, rl + 1, rl + 2, rg - 1, rg, rg + 1, 255, random.below(256)];
            turns.retain(|x| *x < 256);
            turns.sort_unstable();
            turns.dedup();
            for (x, hole) in turns.iter().flat_map(|x| (0..256).map(move |hole| (*x, hole))) {
                run(&Pop::drawn(&mut random, [rg, rl, x, hole]));
            }
        }
    }
}

#[test]
fn restored_first_and_cleared_after() {
    let mut met = [0; 6];
    every(&[32, 33, 100, 254, 255], |pop| {
        let Popped { x, rl, rg, hole, .. } = pop.popped;
        assert_eq!((pop.popped.new_rl(), pop.judged(STAGES)), (pop.new_rl, Ok(())), "rG {rg} rL {rl} X {x} H {hole}");
        let kinds = [x == 0, x > rl, hole >= rg, hole + x > rg && x > 0, x > hole + 2 && x <= rl, pop.new_rl == rg];
        met.iter_mut().zip(kinds).for_each(|(n, met)| *n += met as u64);
    });
    assert!(met.iter().all(|n| *n > 1000), "no outputs, X > rL, H ≥ rG, cut at rG, overlap, nothing to clear: {met:?}");
}

/// How many POPs there are of those that `ill` names: these are refused, and no others.
fn refused(stages: [Stage; 2], ill: fn(&Pop) -> bool) -> u64 {
    let mut found = 0;
    every(&[40], |pop| {
        assert_eq!(pop.judged(stages).is_err(), ill(pop));
        found += ill(pop) as u64;
    });
    found
}

/// What comes back is computed from the registers before, but written after something else was.
fn restored_from(sources: Traced, popped: &Popped, registers: &mut Traced) {
    let mut outputs = Traced { writes: Vec::new(), ..sources };
    popped.restored_first(&mut outputs);
    outputs.writes.iter().for_each(|(k, value)| registers.write(*k, *value));
}

/// All below rG to zero, and then what comes back.
#[test]
fn clearing_all_first_is_refused() {
    fn cleared_first(popped: &Popped, registers: &mut Traced) {
        let sources = registers.clone();
        (0..popped.rg).for_each(|k| registers.write(k, 0));
        restored_from(sources, popped, registers);
    }
    assert!(refused([cleared_first, |_, _| {}], |_| true) > 10_000);
}

/// The right registers to zero, but before the others are written.
#[test]
fn clearing_the_range_first_is_refused() {
    fn cleared_first(popped: &Popped, registers: &mut Traced) {
        let sources = registers.clone();
        popped.cleared_after(registers);
        restored_from(sources, popped, registers);
    }
    assert!(refused([cleared_first, |_, _| {}], |pop| !pop.cleared().is_empty()) > 1000);
}

#[test]
fn a_hole_written_with_no_outputs_is_refused() {
    fn with_hole(popped: &Popped, registers: &mut Traced) {
        if popped.x == 0 && popped.hole < popped.rg {
            registers.write(popped.hole, 0);
        }
        popped.restored_first(registers);
    }
    let ill = |pop: &Pop| pop.popped.x == 0 && pop.popped.hole < pop.popped.rg;
    assert!(refused([with_hole, Popped::cleared_after], ill) > 200);
}

/// Outputs moved up from the first on: where one lands on the source of another, which is read after it.
#[test]
fn outputs_over_their_sources_are_refused() {
    fn upward(popped: &Popped, registers: &mut Traced) {
        let mut right = registers.clone();
        popped.restored_first(&mut right);
        let (moved, others): (Vec<_>, Vec<_>) = right.writes.into_iter().partition(|(k, _)| *k > popped.hole);
        for (k, _) in moved.iter().rev() {
            let output = registers.read(k - popped.hole - 1);
            registers.write(*k, output);
        }
        others.iter().for_each(|(k, value)| registers.write(*k, *value));
    }
    let overlap = |pop: &Pop| pop.new_rl > 2 * (pop.popped.hole + 1);
    assert!(refused([upward, Popped::cleared_after], overlap) > 200);
}
