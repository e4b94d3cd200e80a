//! How often each opcode met each reply, and how often each situation was met.

use crate::case::{Call, Case, Kind};
use crate::lendings::{self, LENDINGS};
use crate::opcodes::*;
use crate::reference::Answer;
use crate::runs::{self, RUNS};
use crate::situations::{self, SITUATIONS};

const REPLIES: usize = 30;
/// Met less often than this, a pair of opcode and reply, an opcode that is done, or a situation is met too seldom.
const PAIR_LEAST: u64 = 100;
const DONE_LEAST: u64 = 500;
const SITUATION_LEAST: u64 = 50;

/// The replies that each opcode can get, 1, 2 and 22 apart, which each can.
fn replies(op: u8) -> &'static [usize] {
    match op {
        BN..=PBEVB | GO | GOI | JMP | JMPB | GETA | GETAB | SWYM => &[0],
        PUSHGO | PUSHGOI | PUSHJ | PUSHJB => &[0, 6],
        MUL..=SRUI if raises(op) => &[0, 19],
        STB..=STOUI if raises(op) => &[0, 6, 19],
        LDB..=LDOUI | STB..=STOUI => &[0, 6],
        TRAP => &[4, 20],
        PUT => &[0, 7, 8, 9, 10, 11],
        PUTI => &[0, 7, 8, 9, 10],
        POP => &[0, 6, 12, 29],
        SAVE => &[0, 6, 13],
        UNSAVE => &[0, 6, 14, 15, 16],
        SYNC => &[0, 17, 18],
        GET => &[0, 5],
        TRIP => &[0, 19],
        _ if is_added(op) => &[0],
        _ => &[3],
    }
}

const EXCEPTION_REPLIES: [usize; 3] = [0, 1, 19];
const CONTEXT_REPLIES: [usize; 8] = [0, 2, 6, 14, 15, 16, 22, 23];
const INITIALIZE_REPLIES: [usize; 2] = [0, 1];
const RUN_REPLIES: [usize; 25] =
    [0, 1, 2, 3, 4, 5, 6, 7, 8, 9, 10, 11, 12, 13, 14, 15, 16, 17, 18, 19, 20, 22, 24, 25, 29];
const FIELD_REPLIES: [usize; 2] = [0, 21];

#[derive(Clone)]
pub struct Tally {
    steps: Vec<[u64; REPLIES]>,
    runs: [u64; REPLIES],
    exceptions: [u64; REPLIES],
    contexts: [u64; REPLIES],
    initialized: [u64; REPLIES],
    branch_fields: [u64; REPLIES],
    jump_fields: [u64; REPLIES],
    situations: [u64; SITUATIONS.len()],
    lendings: [u64; LENDINGS.len()],
    ran: [u64; RUNS.len()],
    two_enabled: u64,
}

impl Default for Tally {
    fn default() -> Self {
        let none = [0; REPLIES];
        let (situations, lendings) = ([0; SITUATIONS.len()], [0; LENDINGS.len()]);
        Self {
            steps: vec![none; 256],
            runs: none,
            exceptions: none,
            contexts: none,
            initialized: none,
            branch_fields: none,
            jump_fields: none,
            situations,
            lendings,
            ran: [0; RUNS.len()],
            two_enabled: 0,
        }
    }
}

impl Tally {
    pub fn count(&mut self, case: &Case, answer: &Answer) {
        let row = match case.call {
            Call::Step(i) => &mut self.steps[i.op as usize],
            Call::Run { .. } => &mut self.runs,
            Call::Exceptions { .. } => &mut self.exceptions,
            Call::Context { .. } => &mut self.contexts,
            Call::Initialize => &mut self.initialized,
            Call::Field { kind: Kind::Branch, .. } => &mut self.branch_fields,
            Call::Field { kind: Kind::Jump, .. } => &mut self.jump_fields,
        };
        row[answer.reply as usize] += 1;
        self.two_enabled += (case.two_enabled() && answer.reply != 1) as u64;
        situations::count(case, answer, &mut self.situations);
        lendings::count(case, answer, &mut self.lendings);
        runs::count(case, answer, &mut self.ran);
    }

    fn rows(&self) -> impl Iterator<Item = &[u64; REPLIES]> {
        let Self { runs, exceptions, contexts, initialized, branch_fields, jump_fields, .. } = self;
        self.steps.iter().chain([runs, exceptions, contexts, initialized, branch_fields, jump_fields])
    }

    pub fn add(&mut self, other: &Self) {
        let Self { steps, runs, exceptions, contexts, initialized, branch_fields, jump_fields, .. } = self;
        let own = steps.iter_mut().chain([runs, exceptions, contexts, initialized, branch_fields, jump_fields]);
        for (row, more) in own.zip(other.rows()) {
            row.iter_mut().zip(more).for_each(|(a, b)| *a += b);
        }
        self.two_enabled += other.two_enabled;
        self.situations.iter_mut().zip(&other.situations).for_each(|(a, b)| *a += b);
        self.lendings.iter_mut().zip(&other.lendings).for_each(|(a, b)| *a += b);
        self.ran.iter_mut().zip(&other.ran).for_each(|(a, b)| *a += b);
    }

    pub fn cases(&self) -> u64 {
        self.rows().flatten().sum()
    }

    /// The cases of opcodes for which the model stands in for the Rust.
    pub fn added(&self) -> u64 {
        added().flat_map(|op| &self.steps[op as usize]).sum()
    }

    /// The exceptions with two or more flags raised and enabled, for which it stands in too.
    pub fn two_enabled(&self) -> u64 {
        self.two_enabled
    }

    /// The POPs without a frame, for which it stands in too.
    pub fn no_frame(&self) -> u64 {
        self.steps[POP as usize][29]
    }

    /// The rows by name, each with the replies that it can have.
    fn named(&self) -> Vec<(String, &[u64; REPLIES], Vec<usize>)> {
        let step = |(op, row)| (format!("{op:02x}"), row, [&[1, 2, 22], replies(op as u8)].concat());
        let mut rows: Vec<_> = self.steps.iter().enumerate().map(step).collect();
        rows.push(("run".to_string(), &self.runs, RUN_REPLIES.to_vec()));
        rows.push(("exceptions".to_string(), &self.exceptions, EXCEPTION_REPLIES.to_vec()));
        rows.push(("context".to_string(), &self.contexts, CONTEXT_REPLIES.to_vec()));
        rows.push(("initialize".to_string(), &self.initialized, INITIALIZE_REPLIES.to_vec()));
        rows.push(("branch_field".to_string(), &self.branch_fields, FIELD_REPLIES.to_vec()));
        rows.push(("jump_field".to_string(), &self.jump_fields, FIELD_REPLIES.to_vec()));
        rows
    }

    /// The situations by name, those of the windows and of runs among them.
    fn met(&self) -> impl Iterator<Item = (&'static str, u64)> {
        let names = SITUATIONS.iter().map(|(name, _)| *name).chain(LENDINGS.iter().map(|(name, _)| *name));
        let names = names.chain(RUNS.iter().map(|(name, _)| *name));
        names.zip(self.situations.iter().chain(&self.lendings).chain(&self.ran).copied())
    }

    /// One line an opcode, `reply:count`; the situations; the pairs met least.
    pub fn print(&self) {
        let mut pairs: Vec<(u64, String)> = Vec::new();
        for (name, row, _) in self.named() {
            let met = row.iter().enumerate().filter(|(_, n)| **n > 0);
            let counts: Vec<String> = met.clone().map(|(r, n)| format!("{r}:{n}")).collect();
            println!("{name:<12} {}", counts.join(" "));
            pairs.extend(met.map(|(r, n)| (*n, format!("{name}/{r}:{n}"))));
        }
        for (name, n) in self.met() {
            println!("{n:>9} {name}");
        }
        pairs.sort_unstable();
        let least: Vec<&str> = pairs.iter().take(8).map(|(_, text)| text.as_str()).collect();
        println!("{} pairs of opcode and reply; met least: {}", pairs.len(), least.join(" "));
    }

    /// What was met too seldom, or should not have been met at all.
    pub fn seldom(&self) -> Vec<String> {
        let mut list = Vec::new();
        for (name, row, can) in self.named() {
            for (reply, n) in row.iter().enumerate() {
                let least = if reply == 0 { DONE_LEAST } else { PAIR_LEAST };
                match can.contains(&reply) {
                    true if *n < least => list.push(format!("{name} reply {reply}, {n} times")),
                    false if *n > 0 => list.push(format!("{name} reply {reply}, which it can't have, {n} times")),
                    _ => {}
                }
            }
        }
        for (name, n) in self.met().filter(|(_, n)| *n < SITUATION_LEAST) {
            list.push(format!("{name}, {n} times"));
        }
        list
    }
}
