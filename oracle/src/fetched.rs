//! The Rust's answer to a run. The Rust has no run: each instruction is fetched from its memory and $X claimed by its own
//! functions, and then it is a step of `reference`, the model's at an added opcode. What 02 adds is judged here: 24, 25, the
//! claim taken back, the count. Where every instruction that was done has an arm of the Rust's, all of them are done once
//! more by the Rust alone, one after the other from the first state on, and must leave the same.

use facade::touches;

use crate::case::{Call, Case, Instruction};
use crate::opcodes::is_added;
use crate::reference::{Answer, Reference};
use crate::state::{RG, RL, State};

/// An instruction of a run, done or refused: where it was, what it was, and what its claim cleared.
#[derive(Clone, Debug)]
pub struct Fetched {
    pub pc: u64,
    pub i: Instruction,
    pub reply: u64,
    /// $X was claimed, and one of the registers that became 0 had not been 0.
    pub claimed: bool,
    pub cleared: bool,
    /// rL and rG before it.
    pub rl: u64,
    pub rg: u64,
}

impl Reference {
    /// A call that passes 1, 2, 22 and 25.
    pub(crate) fn run(&mut self, case: &Case, grant: u64) -> Result<Answer, String> {
        let (mut now, mut answer) = (case.clone(), self.unchanged(case, 0));
        let mut done_before = case.clone();
        while answer.done < grant {
            if !now.windows.holds(now.state.pc) {
                answer.reply = 24;
                answer.touched.push(now.state.pc & !7);
                break;
            }
            let (i, claimed) = self.fetch(&now, &mut answer.touched);
            let before = std::mem::replace(&mut now.state, claimed);
            now.call = Call::Step(i);
            let step = self.answer(&now)?;
            answer.ran.push(of(&before, &now.state, i, step.reply));
            answer.touched.extend(step.touched);
            (now.state, now.windows, answer.reply) = (step.state, step.windows, step.reply);
            if step.reply != 0 {
                if step.reply != 19 {
                    now.state.general[..before.special[RG] as usize]
                        .copy_from_slice(&before.general[..before.special[RG] as usize]);
                    now.state.special[RL] = before.special[RL];
                }
                break;
            }
            answer.done += 1;
            (done_before.state, done_before.windows) = (now.state.clone(), now.windows.clone());
        }
        answer.touched.sort_unstable();
        answer.touched.dedup();
        (answer.state, answer.windows) = (now.state, now.windows);
        if answer.ran.iter().all(|fetched| fetched.reply != 0 || !is_added(fetched.i.op)) {
            answer.by_the_rust_alone = answer.done > 0;
            self.alone(case, answer.done, &done_before)?;
        }
        Ok(answer)
    }

    /// The instruction at PC, and the state with its $X claimed, by the Rust.
    fn fetch(&mut self, case: &Case, touched: &mut Vec<u64>) -> (Instruction, State) {
        self.place(case);
        touches::start();
        let (op, x, y, z) = self.machine.fetch_and_claim();
        touches::stop(&mut self.touches);
        touched.extend(self.touches.iter().map(|touch| touch.octabyte));
        (Instruction { op, x, y, z }, self.state())
    }

    /// So many instructions by the Rust, with nothing between them.
    fn alone(&mut self, case: &Case, done: u64, after: &Case) -> Result<(), String> {
        self.place(case);
        touches::start();
        let goes_on = (0..done).all(|_| self.machine.execute_instruction());
        touches::stop(&mut self.touches);
        let state = self.state();
        self.follow_writes();
        if !goes_on || !self.diagnostics.borrow().is_empty() {
            return Err("the Rust alone stops".to_string());
        }
        if let Some(difference) = after.state.difference(&state) {
            return Err(format!("the Rust alone: {difference}"));
        }
        if self.windows != after.windows {
            return Err("the Rust alone: other windows".to_string());
        }
        Ok(())
    }
}

fn of(before: &State, claimed: &State, i: Instruction, reply: u64) -> Fetched {
    let (rl, rg) = (before.special[RL], before.special[RG]);
    let grown = claimed.special[RL] != rl;
    Fetched { pc: before.pc, i, reply, claimed: grown, cleared: before.general != claimed.general, rl, rg }
}
