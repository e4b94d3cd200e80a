//! PUT for a whole set, from 02: pair by pair on a copy, which is dropped where one fails.

use super::{Outcome, arms};
use crate::state::State;

pub const PAIRS_MAX: usize = 32;

/// The reply, the place of the first pair that fails or 0, and the state.
pub fn put(state: &State, pairs: &[(u64, u64)]) -> (u64, u64, State) {
    if !state.admissible() {
        return (1, 0, state.clone());
    }
    if pairs.len() > PAIRS_MAX {
        return (30, 0, state.clone());
    }
    let mut after = state.clone();
    for (place, (register, value)) in pairs.iter().enumerate() {
        let put = arms::put(&after, *register as usize, *value);
        if put.reply != 0 {
            return (put.reply, place as u64, Outcome::refused(put.reply, state).state);
        }
        after = put.state;
        after.pc = state.pc;
    }
    (0, 0, after)
}
