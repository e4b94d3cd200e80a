//! Situations of runs that have to be met: what was granted, where a run stopped, where its instructions were, what its claims
//! did.

use crate::case::{Call, Case};
use crate::fetched::Fetched;
use crate::lent::Window;
use crate::opcodes::*;
use crate::reference::{Answer, GRANT_MOST};
use crate::state::RL;

type Test = fn(&Run) -> bool;

pub const RUNS: [(&str, Test); 43] = [
    ("run, 0 granted", |r| r.grant == 0 && r.answer.reply == 0),
    ("run, 1 granted and done", |r| r.grant == 1 && r.answer.reply == 0),
    ("run, spent after some", |r| r.grant > 1 && r.answer.reply == 0),
    ("run, refused by the last one granted", |r| r.stopped() && r.answer.done + 1 == r.grant),
    ("run, refused with more granted", |r| r.stopped() && r.answer.done + 1 < r.grant),
    ("run, refused at once", |r| r.stopped() && r.answer.done == 0),
    ("run, 20 and more done", |r| r.answer.done >= 20),
    ("run, 1,000,000 granted", |r| r.grant == GRANT_MOST && r.stopped()),
    ("25 at 1,000,001", |r| r.grant == GRANT_MOST + 1 && r.answer.reply == 25),
    ("25 far above", |r| r.grant >= 1 << 32 && r.answer.reply == 25),
    ("1 with too much granted", |r| r.grant > GRANT_MOST && r.answer.reply == 1),
    ("2 with too much granted", |r| r.grant > GRANT_MOST && r.answer.reply == 2),
    ("22 with too much granted", |r| r.grant > GRANT_MOST && r.answer.reply == 22),
    ("1, 2 or 22 with nothing granted", |r| r.grant == 0 && matches!(r.answer.reply, 1 | 2 | 22)),
    ("run, PC with low bits", |r| r.answer.done > 0 && r.case.state.pc % 4 != 0),
    ("call with low bits", |r| r.done().any(|f| f.pc % 4 != 0 && is_call(f.i.op))),
    ("trip with low bits", |r| r.done().any(|f| f.pc % 4 != 0 && f.i.op == TRIP)),
    ("fetched in A", |r| r.done().any(|f| r.a().holds(f.pc))),
    ("fetched in B", |r| r.done().any(|f| r.b().holds(f.pc))),
    ("fetched in both", |r| r.done().any(|f| r.a().holds(f.pc)) && r.done().any(|f| r.b().holds(f.pc))),
    ("fetched across 2^64", |r| r.done().any(|f| f.pc >= 1 << 63) && r.done().any(|f| f.pc < 1 << 63)),
    ("24 with nothing done", |r| r.answer.reply == 24 && r.answer.done == 0),
    ("24 at the end of the window, after its last tetra", |r| {
        r.answer.reply == 24 && r.last().is_some_and(|f| f.pc.wrapping_add(4) == r.answer.state.pc)
    }),
    ("24 after a leap", |r| {
        r.answer.reply == 24 && r.last().is_some_and(|f| f.pc.wrapping_add(4) != r.answer.state.pc)
    }),
    ("24 and the halt code is 0", |r| r.answer.reply == 24 && r.answer.state.halt == 0),
    ("stopped at TRAP 0,0,0", |r| r.answer.reply == 4 && r.last().is_some_and(|f| [f.i.x, f.i.y, f.i.z] == [0; 3])),
    ("some instruction done twice", |r| r.again()),
    ("call and return", |r| r.done().any(|f| is_call(f.i.op)) && r.done().any(|f| f.i.op == POP)),
    ("SAVE and UNSAVE", |r| r.done().any(|f| f.i.op == SAVE) && r.done().any(|f| f.i.op == UNSAVE)),
    ("an instruction that was stored by the run", |r| r.done().any(|f| r.changed(f))),
    ("claim done", |r| r.done().any(|f| f.claimed)),
    ("claim that clears, done", |r| r.done().any(|f| f.cleared)),
    ("GET rL that claims", |r| r.done().any(|f| f.claimed && f.i.op == GET && f.i.z == RL as u8)),
    ("GO that claims with Y or Z cleared", |r| r.done().any(|f| matches!(f.i.op, GO | GOI) && r.cleared_operand(f))),
    ("load that claims with Y or Z cleared", |r| {
        r.done().any(|f| (LDB..=LDOUI).contains(&f.i.op) && r.cleared_operand(f))
    }),
    ("operation that claims with Y or Z cleared", |r| r.done().any(|f| is_arithmetic(f.i.op) && r.cleared_operand(f))),
    ("call that claims and clears", |r| r.done().any(|f| is_call(f.i.op) && f.cleared)),
    ("claim taken back, nothing cleared", |r| r.taken_back().is_some_and(|f| !f.cleared)),
    ("claim taken back, registers too", |r| r.taken_back().is_some_and(|f| f.cleared)),
    ("claim taken back by 6", |r| r.taken_back().is_some_and(|f| f.reply == 6)),
    ("claim taken back by 13", |r| r.taken_back().is_some_and(|f| f.reply == 13)),
    ("claim kept by 19", |r| r.answer.reply == 19 && r.last().is_some_and(|f| f.claimed)),
    ("run by the Rust alone", |r| r.answer.by_the_rust_alone),
];

fn is_call(op: u8) -> bool {
    matches!(op, PUSHJ | PUSHJB | PUSHGO | PUSHGOI)
}

/// A run with its answer, and what is asked of them.
pub struct Run<'a> {
    case: &'a Case,
    grant: u64,
    answer: &'a Answer,
}

impl Run<'_> {
    fn a(&self) -> &Window {
        &self.case.windows.a
    }

    fn b(&self) -> &Window {
        &self.case.windows.b
    }

    /// Refused, and not as a whole.
    fn stopped(&self) -> bool {
        !matches!(self.answer.reply, 0 | 1 | 2 | 22 | 25)
    }

    fn done(&self) -> impl Iterator<Item = &Fetched> {
        self.answer.ran.iter().filter(|fetched| fetched.reply == 0)
    }

    /// The last one tried.
    fn last(&self) -> Option<&Fetched> {
        self.answer.ran.last()
    }

    fn taken_back(&self) -> Option<&Fetched> {
        self.last().filter(|fetched| fetched.claimed && !matches!(fetched.reply, 0 | 19))
    }

    fn again(&self) -> bool {
        let mut places: Vec<u64> = self.done().map(|fetched| fetched.pc).collect();
        places.sort_unstable();
        places.windows(2).any(|two| two[0] == two[1])
    }

    /// Another tetra than stood there at first.
    fn changed(&self, Fetched { pc, i, .. }: &Fetched) -> bool {
        let at_first = self.case.windows.octabyte_at(*pc).map(u64::to_be_bytes);
        let half = (pc % 8 / 4 * 4) as usize;
        at_first.is_some_and(|bytes| bytes[half..half + 4] != [i.op, i.x, i.y, i.z])
    }

    /// Its claim cleared a register that it reads.
    fn cleared_operand(&self, Fetched { i, cleared, rl, .. }: &Fetched) -> bool {
        let marginal = |k: u8| *rl <= k as u64 && k <= i.x;
        *cleared && (marginal(i.y) || i.op % 2 == 0 && marginal(i.z))
    }
}

/// Count the situations that a case is in.
pub fn count(case: &Case, answer: &Answer, counts: &mut [u64; RUNS.len()]) {
    if let Call::Run { grant } = case.call {
        let run = Run { case, grant, answer };
        counts.iter_mut().zip(&RUNS).for_each(|(count, (_, test))| *count += test(&run) as u64);
    }
}
