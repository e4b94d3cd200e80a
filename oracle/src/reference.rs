//! The Rust's answer to a case, both windows in its memory. Numbers 1 and 2 are 01's rules, for the Rust judges neither, and
//! 22, an octabyte in both windows, is no word of the Rust's either; 3 is an opcode
//! for which neither dispatch file has an arm (found by entering them), or RESUME; 4 is `from_u8`'s word; 5 is
//! a Z that names no special register; 6 is a touch outside both windows; 7 to 20 are read off the one
//! diagnostic that the Rust sends. 23 is given to the context reader where the Rust's UNSAVE is done and what it touched
//! lies in both windows.
//!
//! A field is found by trial: the Rust takes the one candidate of each direction, as a jump or as a branch on 0, and goes to
//! the address or does not; 21 is given where it goes there by neither.
//!
//! The Rust has no arm for an added opcode (`opcodes::is_added`): from 22 on, the answer there is the model's, and the
//! library is compared with the model alone. So it is, from 1 on, at flags of which two or more are raised and enabled
//! (`Case::two_enabled`), and at POP without a frame (`Case::no_frame`), which 29 refuses: there the definition departs from the
//! Rust. A run is answered in `fetched`, step by step. The Rust has no mask: the answer keeps it, and 31 is told in `masks`.

use std::cell::RefCell;
use std::ops::Range;
use std::panic::{self, AssertUnwindSafe};
use std::rc::Rc;
use std::sync::OnceLock;

use facade::touches::{self, Touch};
use taken::mmix::{Host, MMix, SpecialReg, TrapCode};
use taken::mmixal::Opcode;

use crate::case::{Call, Case, Instruction, Kind};
use crate::fetched::Fetched;
use crate::fields;
use crate::lent::{Window, Windows};
use crate::model::{self, Model};
use crate::opcodes::{GET, RESUME, TRAP, is_added};
use crate::state::{RG, RL, RO, State, WINDOW_MAX, is_image, octabyte};
use crate::subject::Subject;

/// What the Rust leaves, or the model at an added opcode or two enabled flags. The windows are as before where the reply is 1 to 6 or 22.
#[derive(Clone)]
pub struct Answer {
    pub reply: u64,
    pub state: State,
    pub windows: Windows,
    /// The octabytes touched, in ascending order, each once; for a reply of 1 to 5 or 22 none.
    pub touched: Vec<u64>,
    /// The window that a context lies in, 0 for A and 1 for B, and the part of it that it has; 0 and empty where none was found.
    pub which: u64,
    pub part: Range<usize>,
    /// Backward (1) or not, and the field; both 0 where none was found.
    pub aim: (u8, u32),
    /// How many instructions a run did, those that it tried, and whether the Rust did all of them alone too.
    pub done: u64,
    pub ran: Vec<Fetched>,
    pub by_the_rust_alone: bool,
}

impl Answer {
    fn new(reply: u64, state: State, windows: Windows) -> Self {
        let (part, aim, ran) = (0..0, (0, 0), Vec::new());
        Self { reply, state, windows, touched: Vec::new(), which: 0, part, aim, done: 0, ran, by_the_rust_alone: false }
    }
}

#[derive(Clone, Copy, PartialEq, Eq, Debug)]
enum Arm {
    Control,
    System,
    None,
}

/// A host that keeps diagnostics and does nothing else.
struct Recorder(Rc<RefCell<Vec<String>>>);

impl Host for Recorder {
    fn write(&mut self, _fd: u8, _bytes: &[u8]) -> std::io::Result<()> {
        Ok(())
    }

    fn now_micros(&mut self) -> u64 {
        0
    }

    fn diagnostic(&mut self, message: &str) {
        self.0.borrow_mut().push(message.to_string());
    }
}

pub struct Reference {
    pub(crate) machine: MMix,
    pub(crate) diagnostics: Rc<RefCell<Vec<String>>>,
    /// What the machine's memory holds: these windows, and nothing else.
    pub(crate) windows: Windows,
    /// The mask of the case that was placed last.
    mask: u64,
    pub(crate) touches: Vec<Touch>,
}

impl Default for Reference {
    fn default() -> Self {
        Self::new()
    }
}

impl Reference {
    pub fn new() -> Self {
        let diagnostics = Rc::default();
        let machine = MMix::with_host(Recorder(Rc::clone(&diagnostics)));
        Self { machine, diagnostics, windows: Windows::default(), mask: 0, touches: Vec::new() }
    }

    /// The Rust's answer, or what is wrong with it: a panic, a diagnostic that no number has, a number beside
    /// a step that continues.
    pub fn answer(&mut self, case: &Case) -> Result<Answer, String> {
        if let Call::Field { kind, from, to } = case.call {
            return self.found(case, kind, from, to);
        }
        if let Some(reply) = judged(case) {
            return Ok(self.unchanged(case, reply));
        }
        if let Call::Run { grant } = case.call {
            return self.run(case, grant);
        }
        match case.call {
            Call::Step(i) if is_added(i.op) || case.no_frame() => return Ok(of_model(case, i)),
            Call::Exceptions { flags, of, y_val, z_val } if case.two_enabled() => {
                return Ok(raised_by_model(case, flags, of, y_val, z_val));
            }
            _ => {}
        }
        self.place(case);

        touches::start();
        let run = panic::catch_unwind(AssertUnwindSafe(|| enter(&mut self.machine, &case.call)));
        touches::stop(&mut self.touches);
        let goes_on = run.map_err(|_| "the Rust panics".to_string())?;
        let reply = self.number(goes_on)?;

        let mut touched: Vec<u64> = self.touches.iter().map(|t| t.octabyte).collect();
        touched.sort_unstable();
        touched.dedup();
        let outside = touched.iter().any(|a| !case.windows.holds(*a));
        let state = self.state();
        self.follow_writes();
        if outside {
            return Ok(Answer { touched, ..self.unchanged(case, 6) });
        }
        if let (Call::Context { .. }, 0) = (case.call, reply) {
            return Ok(self.part(case, &state, touched));
        }
        Ok(Answer { state, windows: self.windows.clone(), touched, ..self.unchanged(case, reply) })
    }

    /// Fields that differ, modulo their number, lead to addresses that differ modulo 4 × that number: so one candidate of
    /// each direction is enough.
    fn found(&mut self, case: &Case, kind: Kind, from: u64, to: u64) -> Result<Answer, String> {
        let candidate = to.wrapping_sub(from) / 4 % kind.size() as u64;
        let mut answer = self.unchanged(case, 21);
        for backward in [false, true] {
            let step = fields::patched(kind, backward, candidate as u32, from);
            if self.answer(&step)?.state.pc == to {
                if answer.reply == 0 {
                    return Err("two fields go there".to_string());
                }
                (answer.reply, answer.aim) = (0, (backward as u8, candidate as u32));
            }
        }
        Ok(answer)
    }

    pub(crate) fn unchanged(&self, case: &Case, reply: u64) -> Answer {
        Answer::new(reply, case.state.clone(), case.windows.clone())
    }

    /// Make the machine the case's: memory, registers, loaded addresses; no diagnostic is sent.
    pub(crate) fn place(&mut self, case: &Case) {
        self.lend(&case.windows);
        let State { general, special, pc, halt, mask, .. } = &case.state;
        self.mask = *mask;
        self.machine.place(general, special, *pc, *halt);
        self.machine.place_loaded(case.loaded());
        self.diagnostics.borrow_mut().clear();
    }

    /// Make the machine's memory hold these windows and nothing else.
    fn lend(&mut self, windows: &Windows) {
        let as_before = |old: &Window, new: &Window| old.base == new.base && old.bytes.len() == new.bytes.len();
        if !as_before(&self.windows.a, &windows.a) || !as_before(&self.windows.b, &windows.b) {
            self.machine.empty_memory();
            let empty = |w: &Window| Window { base: w.base, bytes: vec![0; w.bytes.len()] };
            self.windows = Windows { a: empty(&windows.a), b: empty(&windows.b) };
        }
        for (held, lent) in [(&mut self.windows.a, &windows.a), (&mut self.windows.b, &windows.b)] {
            for (k, (old, new)) in held.bytes.chunks_exact_mut(8).zip(lent.bytes.chunks_exact(8)).enumerate() {
                if old != new {
                    old.copy_from_slice(new);
                    self.machine.write_octa(lent.base.wrapping_add(8 * k as u64), octabyte(new));
                }
            }
        }
    }

    /// Read back what was written: inside into the windows; outside it is taken away again.
    pub(crate) fn follow_writes(&mut self) {
        for touch in self.touches.iter().filter(|t| t.written) {
            match self.windows.holding_mut(touch.octabyte) {
                Some(window) => {
                    let (at, value) =
                        (window.distance(touch.octabyte) as usize, self.machine.read_octa(touch.octabyte));
                    window.bytes[at..at + 8].copy_from_slice(&value.to_be_bytes());
                }
                None => self.machine.write_octa(touch.octabyte, 0),
            }
        }
    }

    /// All of memory is the windows that `follow_writes` keeps: a check of this file itself.
    pub fn memory_is_followed(&self) -> bool {
        let mut bytes = 0;
        let Windows { a, b } = &self.windows;
        let same = self.machine.occupied().all(|(address, byte)| {
            bytes += 1;
            let here = |w: &Window| w.bytes.get(address.wrapping_sub(w.base) as usize) == Some(&byte);
            here(a) || here(b)
        });
        same && bytes == a.bytes.iter().chain(&b.bytes).filter(|b| **b != 0).count()
    }

    /// The state of the machine. The marks are read off the loaded addresses.
    pub(crate) fn state(&self) -> State {
        let whole = |k: u64| (0..4).all(|j| self.machine.is_loaded(16 * k + j));
        let marks = (0..9).filter(|k| whole(*k)).map(|k| 1 << k).sum();
        State {
            general: *self.machine.general(),
            special: *self.machine.special(),
            pc: self.machine.get_pc(),
            halt: self.machine.get_exit_code(),
            marks,
            mask: self.mask,
        }
    }

    /// The number of the one diagnostic sent, 0 if none was.
    fn number(&self, goes_on: bool) -> Result<u64, String> {
        let sent = self.diagnostics.borrow();
        match (sent.as_slice(), goes_on) {
            ([], true) => Ok(0),
            ([one], false) => number_of(one).ok_or_else(|| format!("no number for: {one}")),
            _ => Err(format!("the Rust continues: {goes_on}, with diagnostics {sent:?}")),
        }
    }

    /// What the reader says of a context that passed: its window and part, by the state that UNSAVE made of it; 23 where what
    /// UNSAVE touched lies in both windows.
    fn part(&self, case: &Case, after: &State, touched: Vec<u64>) -> Answer {
        let Windows { a, b } = &case.windows;
        let [in_a, in_b] = [a, b].map(|w| touched.iter().all(|address| w.holds(*address)));
        if !in_a && !in_b {
            return Answer { touched, ..self.unchanged(case, 23) };
        }
        let start = if in_b { b } else { a }.distance(after.special[RO]) as usize;
        let part = start..start + 8 * (after.special[RL] + 270 - after.special[RG]) as usize;
        Answer { touched, which: in_b as u64, part, ..self.unchanged(case, 0) }
    }
}

/// The model's answer to a step.
fn of_model(case: &Case, i: Instruction) -> Answer {
    let (mut state, mut windows) = (case.state.clone(), case.windows.clone());
    let touched = model::needs(i, &state, &windows);
    let reply = Model.step_lent(i, &mut state, windows.lend());
    Answer { touched, ..Answer::new(reply, state, windows) }
}

/// The model's answer to an exception.
fn raised_by_model(case: &Case, flags: u8, of: Instruction, y_val: u64, z_val: u64) -> Answer {
    let mut state = case.state.clone();
    let reply = Model.exceptions_parts(flags, of, y_val, z_val, (&mut state).into());
    Answer::new(reply, state, case.windows.clone())
}

/// The rule of one window.
fn obeys(window: &Window) -> bool {
    window.size().is_multiple_of(8) && window.bytes.len() <= WINDOW_MAX && window.base.is_multiple_of(8)
}

/// The largest grant.
pub const GRANT_MOST: u64 = 1_000_000;

/// Numbers 1 to 5, 22 and 25.
fn judged(case: &Case) -> Option<u64> {
    let bad_state = !is_image(case.image_len) || !case.state.admissible();
    let Windows { a, b } = &case.windows;
    let bad_window = !(obeys(a) && obeys(b));
    match case.call {
        Call::Initialize => (!is_image(case.image_len)).then_some(1),
        Call::Exceptions { .. } => bad_state.then_some(1),
        Call::Context { .. } if bad_window => Some(2),
        Call::Context { .. } => case.windows.share().then_some(22),
        Call::Field { .. } => None,
        Call::Run { .. } if bad_state => Some(1),
        Call::Run { .. } if bad_window => Some(2),
        Call::Run { .. } if case.windows.share() => Some(22),
        Call::Run { grant } => (grant > GRANT_MOST).then_some(25),
        Call::Step(Instruction { op, x, y, z }) => {
            if bad_state {
                Some(1)
            } else if bad_window {
                Some(2)
            } else if case.windows.share() {
                Some(22)
            } else if !has_arm(op) {
                Some(3)
            } else if op == TRAP && x == 0 && TrapCode::from_u8(y).is_some() {
                Some(4)
            } else if op == GET && SpecialReg::from_u8(z).is_none() {
                Some(5)
            } else {
                None
            }
        }
    }
}

/// Enter the arm; whether the machine continues.
fn enter(machine: &mut MMix, call: &Call) -> bool {
    match *call {
        Call::Initialize => {
            machine.reset();
            true
        }
        Call::Step(Instruction { op, x, y, z }) => match arms()[op as usize] {
            Arm::Control => machine.enter_control(opcode(op), op, x, y, z),
            Arm::System => machine.enter_system(opcode(op), op, x, y, z),
            Arm::None => unreachable!("judged 3"),
        },
        Call::Exceptions { flags, of: Instruction { op, x, y, z }, y_val, z_val } => {
            machine.enter_exceptions(flags, op, x, y, z, y_val, z_val)
        }
        Call::Context { address } => machine.enter_unsave(address),
        Call::Field { .. } | Call::Run { .. } => unreachable!("answered by steps"),
    }
}

fn opcode(op: u8) -> Opcode {
    Opcode::try_from(op).expect("every byte names an opcode")
}

/// 01's number of a diagnostic.
fn number_of(message: &str) -> Option<u64> {
    let has = |part: &str| message.contains(part);
    let table = [
        (7, has("PUT") && has("no special register above 31")),
        (8, message.starts_with("PUT") && has("privileged-operation interrupt")),
        (10, message.starts_with("PUT") && has("rG must be 32-255 and >= rL")),
        (11, message.starts_with("PUT") && has("rA holds at most 18 bits")),
        (9, message.starts_with("PUT") && has("illegal-instruction interrupt at")),
        (12, message.starts_with("POP ")),
        (13, message.starts_with("SAVE ")),
        (14, message.starts_with("UNSAVE ") && has("saved rG=") && has("outside 32..=255")),
        (15, message.starts_with("UNSAVE ") && has("saved rA=") && has("exceeds")),
        (16, message.starts_with("UNSAVE ") && has("saved local count")),
        (17, message.starts_with("SYNC ") && has("privileged-operation interrupt")),
        (18, message.starts_with("SYNC ") && has("illegal-instruction interrupt")),
        (19, has("trip to unloaded vector")),
        (20, message.starts_with("unsimulated TRAP")),
    ];
    table.iter().find(|(_, fits)| *fits).map(|(number, _)| *number)
}

/// Which of the two dispatch files has an arm for each opcode: an opcode without one panics there.
fn arms() -> &'static [Arm; 256] {
    static ARMS: OnceLock<[Arm; 256]> = OnceLock::new();
    ARMS.get_or_init(|| {
        let hook = panic::take_hook();
        panic::set_hook(Box::new(|_| {}));
        let fresh = || MMix::with_host(Recorder(Rc::default()));
        let enters = |f: fn(&mut MMix, u8) -> bool, op: u8| {
            let mut machine = fresh();
            panic::catch_unwind(AssertUnwindSafe(|| f(&mut machine, op))).is_ok()
        };
        let arms = std::array::from_fn(|op| {
            let control = enters(|m, op| m.enter_control(opcode(op), op, 1, 1, 1), op as u8);
            let system = enters(|m, op| m.enter_system(opcode(op), op, 1, 1, 1), op as u8);
            assert!(!(control && system), "two arms for {op:#x}");
            assert!(!(is_added(op as u8) && (control || system)), "the Rust has an arm for {op:#x}");
            if control {
                Arm::Control
            } else if system {
                Arm::System
            } else {
                Arm::None
            }
        });
        for z in 0..=255 {
            let named = enters(|m, z| m.enter_system(opcode(GET), GET, 1, 0, z), z);
            assert_eq!(named, SpecialReg::from_u8(z).is_some(), "GET {z}");
        }
        panic::set_hook(hook);
        arms
    })
}

/// Whether some arm of the two dispatch files takes the opcode, RESUME left out, or it was added.
pub fn has_arm(op: u8) -> bool {
    is_added(op) || arms()[op as usize] != Arm::None && op != RESUME
}
