//! Change 12 of 02: several tasks on one machine. They share window A, each has a part of B; turns of q instructions, in order of number.

use std::ops::Range;

use super::judged;
use super::memory::{self, Memory};
use super::runs::{GRANT_MOST, fetched};
use crate::lent::Lent;
use crate::state::State;

pub const TASKS_MAX: usize = 8;
/// The most instructions a turn.
pub const TURN_MOST: u64 = 1_000;

/// What a call answers: its reply, each task's count, and its refusal or 0.
pub struct Tasked {
    pub reply: u64,
    pub counts: [u64; TASKS_MAX],
    pub refusals: [u64; TASKS_MAX],
}

/// The parts, each with its first byte and the one after its last; none where they break a rule.
fn ruled(parts: &[u64], len: u64, q: u64) -> Option<Vec<Range<u64>>> {
    let whole = |pair: &[u64]| pair[0] % 8 == 0 && pair[1] % 8 == 0 && pair[0] as u128 + pair[1] as u128 <= len as u128;
    let count = parts.len() / 2;
    if parts.len() % 2 != 0 || !(1..=TASKS_MAX).contains(&count) || !(1..=TURN_MOST).contains(&q) {
        return None;
    }
    if !parts.chunks_exact(2).all(whole) {
        return None;
    }
    let parts: Vec<_> = parts.chunks_exact(2).map(|pair| pair[0]..pair[0] + pair[1]).collect();
    let apart = |one: &Range<u64>, other: &Range<u64>| one.start.max(other.start) >= one.end.min(other.end);
    (0..count).all(|k| (0..k).all(|j| apart(&parts[j], &parts[k]))).then_some(parts)
}

/// The number that refuses a call whole, or the parts.
fn judge(q: u64, grant: u64, states: Option<&[State]>, parts: &[u64], lent: &Lent) -> Result<Vec<Range<u64>>, u64> {
    if let Some(reply) = judged(&Memory::of(lent.at, lent.a, lent.b)) {
        return Err(reply);
    }
    if grant > GRANT_MOST {
        return Err(25);
    }
    let parts = ruled(parts, lent.b.len() as u64, q).ok_or(33u64)?;
    match states {
        Some(states) if states.iter().all(State::admissible) => Ok(parts),
        _ => Err(1),
    }
}

/// One instruction of a task; its reply.
fn one(state: &mut State, own: &Range<u64>, lent: &mut Lent) -> u64 {
    let memory = Memory::of_task(lent.at, lent.a, lent.b, own.clone());
    let mut outcome = fetched(state, &memory);
    if matches!(outcome.reply, 6 | 24) && outcome.needs.iter().any(|a| memory.is_foreign(*a)) {
        outcome.reply = 32;
    }
    *state = outcome.state;
    memory::apply(&outcome.stores, Lent { at: lent.at, a: &mut *lent.a, b: &mut *lent.b });
    outcome.reply
}

/// Judge the call, then give turns. No states: the images are not as long as they should be.
pub fn call(q: u64, grant: u64, mut states: Option<&mut Vec<State>>, parts: &[u64], mut lent: Lent) -> Tasked {
    let mut tasked = Tasked { reply: 0, counts: [0; TASKS_MAX], refusals: [0; TASKS_MAX] };
    let owned = match judge(q, grant, states.as_deref().map(|v| v.as_slice()), parts, &lent) {
        Ok(owned) => owned,
        Err(reply) => {
            tasked.reply = reply;
            return tasked;
        }
    };
    let states = states.as_mut().expect("judged");
    let mut left = grant;
    while left > 0 && tasked.refusals[..owned.len()].contains(&0) {
        for (k, own) in owned.iter().enumerate() {
            let mut done = 0;
            while tasked.refusals[k] == 0 && done < q && left > 0 {
                tasked.refusals[k] = one(&mut states[k], own, &mut lent);
                if tasked.refusals[k] == 0 {
                    (done, left) = (done + 1, left - 1);
                    tasked.counts[k] += 1;
                }
            }
        }
    }
    tasked
}
