//! How deep each entry goes into its stack.
//!
//!     stack_use [CASES] [SEED]
//!
//! Threads with a stack of 64 KiB, painted before, run the entries on drawn cases (100,000 unless told); the lowest
//! byte that was overwritten tells the depth. A thread that does the same but for the entry itself is taken off.
//! The exit status is 1 if an entry uses more than half of such a stack.

use std::ffi::{c_int, c_void};
use std::process::ExitCode;
use std::sync::{Arc, Mutex};
use std::{env, ptr};

use oracle::case::{Call, Case, Instruction, Kind};
use oracle::lent::{Lent, Shown, Windows};
use oracle::model::points::STORE_LEN;
use oracle::reference::Reference;
use oracle::rounds::{ROUND, round};
use oracle::state::{RA, RG, RL, RO, State};
use oracle::subject::{Aim, Found, Parts, Subject, Told, chosen};

const STACK: usize = 64 * 1024;
const MOST: usize = STACK / 2;
const PAINT: u8 = 0xA7;
/// Rounds of cases that one thread runs.
const BATCH: u64 = 20;

/// Room for a pthread_attr_t of any Linux.
#[repr(C, align(16))]
struct Attributes([u8; 128]);

unsafe extern "C" {
    fn pthread_attr_init(attributes: *mut Attributes) -> c_int;
    fn pthread_attr_setstack(attributes: *mut Attributes, stack: *mut c_void, size: usize) -> c_int;
    fn pthread_create(
        thread: *mut usize,
        attributes: *const Attributes,
        start: extern "C" fn(*mut c_void) -> *mut c_void,
        argument: *mut c_void,
    ) -> c_int;
    fn pthread_join(thread: usize, result: *mut *mut c_void) -> c_int;
}

/// Half of it is a thread's stack; the half below must stay painted.
#[repr(align(4096))]
struct Painted([u8; 2 * STACK]);

impl Painted {
    /// Run `work` on a thread of its own; how far down it overwrote the paint.
    fn depth(&mut self, work: &mut Work) -> usize {
        self.0.fill(PAINT);
        // SAFETY: the stack and `work` outlive the thread, which is joined here.
        unsafe {
            let (mut attributes, mut thread) = (Attributes([0; 128]), 0);
            let stack = self.0.as_mut_ptr().wrapping_add(STACK).cast();
            let made = pthread_attr_init(&mut attributes) | pthread_attr_setstack(&mut attributes, stack, STACK);
            let started = pthread_create(&mut thread, &attributes, start, ptr::from_mut(work).cast());
            assert!(made == 0 && started == 0 && pthread_join(thread, ptr::null_mut()) == 0, "no thread");
        }
        let kept = self.0.iter().position(|byte| *byte != PAINT).expect("a thread uses its stack");
        assert!(kept >= STACK, "a stack of {STACK} bytes is too small");
        2 * STACK - kept
    }
}

/// One entry on many cases, each with its buffers.
struct Work<'a> {
    subject: &'a dyn Subject,
    entry: fn(&dyn Subject, &mut Buffers),
    cases: &'a mut [Buffers],
}

struct Buffers {
    case: Case,
    image: Vec<u8>,
    state: State,
    windows: Windows,
    /// A set of up to 32 pairs, and its bytes.
    pairs: Vec<u64>,
    pair_bytes: Vec<u8>,
    /// One for all: what a case takes, the next ones may go back to.
    store: Arc<Mutex<Vec<u8>>>,
}

impl Buffers {
    fn of(case: &Case, store: &Arc<Mutex<Vec<u8>>>) -> Self {
        let (state, windows, store) = (case.state.clone(), case.windows.clone(), store.clone());
        let pairs = pairs(case);
        let pair_bytes = pairs.iter().flat_map(|v| v.to_be_bytes()).collect();
        Self { image: case.image(), state, windows, pairs, pair_bytes, store, case: case.clone() }
    }
}

extern "C" fn start(work: *mut c_void) -> *mut c_void {
    // SAFETY: `depth` passes a Work that nothing else uses until the thread ends.
    let work = unsafe { &mut *work.cast::<Work>() };
    for lent in work.cases.iter_mut() {
        (work.entry)(work.subject, lent);
    }
    ptr::null_mut()
}

/// Does nothing: what is left is the harness's own use.
struct Nothing;

impl Subject for Nothing {
    fn name(&self) -> &'static str {
        "nothing"
    }
    fn initialize(&self, _: &mut [u8]) -> u64 {
        0
    }
    fn initialize_at(&self, _: &mut [u8], _: u64) -> u64 {
        0
    }
    fn step(&self, _: Instruction, _: &mut [u8], _: Lent) -> u64 {
        0
    }
    fn exceptions(&self, _: u8, _: Instruction, _: u64, _: u64, _: &mut [u8]) -> u64 {
        0
    }
    fn context(&self, _: u64, _: Shown, _: Found) -> u64 {
        0
    }
    fn step_lent(&self, _: Instruction, _: &mut State, _: Lent) -> u64 {
        0
    }
    fn step_parts(&self, _: Instruction, _: Parts, _: Lent) -> u64 {
        0
    }
    fn run(&self, _: u64, _: &mut [u8], _: Lent, _: &mut u64) -> u64 {
        0
    }
    fn run_parts(&self, _: u64, _: Parts, _: Lent, _: &mut u64) -> u64 {
        0
    }
    fn exceptions_parts(&self, _: u8, _: Instruction, _: u64, _: u64, _: Parts) -> u64 {
        0
    }
    fn tasks(&self, _: u64, _: u64, _: &mut [u8], _: &[u64], _: Lent, _: Told) -> u64 {
        0
    }
    fn put_set(&self, _: &mut [u8], _: &[u8], _: &mut u64) -> u64 {
        0
    }
    fn put_set_parts(&self, _: Parts, _: &[u64], _: &mut u64) -> u64 {
        0
    }
    fn decode(&self, _: &[u8], _: &mut State) -> u64 {
        0
    }
    fn encode(&self, _: &State, _: &mut [u8]) -> u64 {
        0
    }
    fn field(&self, _: Kind, _: u64, _: u64, _: Aim) -> u64 {
        0
    }
    fn take(&self, _: u64, _: &[u8], _: Shown, _: &mut [u8]) -> u64 {
        0
    }
    fn go_back(&self, _: u64, _: &mut [u8], _: Lent, _: &[u8]) -> u64 {
        0
    }
}

type Entry = fn(&dyn Subject, &mut Buffers);

/// The entries by name; each takes the cases that are its own.
const ENTRIES: [(&str, Entry); 19] = [
    ("mmix_initialize", |subject, lent| {
        if let Call::Initialize = lent.case.call {
            subject.initialize(&mut lent.image);
        }
    }),
    ("mmix_initialize_at", |subject, lent| {
        if let Call::Initialize = lent.case.call {
            subject.initialize_at(&mut lent.image, lent.case.state.special[RO]);
        }
    }),
    ("mmix_step", |subject, lent| {
        if let Call::Step(i) = lent.case.call {
            subject.step(i, &mut lent.image, lent.windows.lend());
        }
    }),
    ("mmix_exceptions", |subject, lent| {
        if let Call::Exceptions { flags, of, y_val, z_val } = lent.case.call {
            subject.exceptions(flags, of, y_val, z_val, &mut lent.image);
        }
    }),
    ("mmix_context", |subject, lent| {
        if let Call::Context { address } = lent.case.call {
            let (mut which, mut start, mut length) = (0, 0, 0);
            let found = Found { which: &mut which, start: &mut start, length: &mut length };
            subject.context(address, lent.windows.show(), found);
        }
    }),
    ("mmix_step_lent", |subject, lent| {
        if let Call::Step(i) = lent.case.call {
            subject.step_lent(i, &mut lent.state, lent.windows.lend());
        }
    }),
    ("mmix_step_parts", |subject, lent| {
        if let Call::Step(i) = lent.case.call {
            subject.step_parts(i, (&mut lent.state).into(), lent.windows.lend());
        }
    }),
    ("mmix_run", |subject, lent| {
        if let Call::Run { grant } = lent.case.call {
            subject.run(grant, &mut lent.image, lent.windows.lend(), &mut 0);
        }
    }),
    ("mmix_run_parts", |subject, lent| {
        if let Call::Run { grant } = lent.case.call {
            subject.run_parts(grant, (&mut lent.state).into(), lent.windows.lend(), &mut 0);
        }
    }),
    ("mmix_tasks", |subject, lent| {
        if let Call::Run { grant } = lent.case.call {
            let parts = [0, lent.windows.b.size() / 2 & !7];
            let told = Told { counts: &mut [0; 8], refusals: &mut [0; 8] };
            subject.tasks(7, grant, &mut lent.image, &parts, lent.windows.lend(), told);
        }
    }),
    ("mmix_exceptions_parts", |subject, lent| {
        if let Call::Exceptions { flags, of, y_val, z_val } = lent.case.call {
            subject.exceptions_parts(flags, of, y_val, z_val, (&mut lent.state).into());
        }
    }),
    ("mmix_put_set", |subject, lent| {
        subject.put_set(&mut lent.image, &lent.pair_bytes, &mut 0);
    }),
    ("mmix_put_set_parts", |subject, lent| {
        subject.put_set_parts((&mut lent.state).into(), &lent.pairs, &mut 0);
    }),
    ("mmix_decode", |subject, lent| {
        subject.decode(&lent.image, &mut lent.state);
    }),
    ("mmix_encode", |subject, lent| {
        subject.encode(&lent.state, &mut lent.image);
    }),
    ("mmix_take", |subject, lent| {
        if let Call::Step(_) = lent.case.call {
            subject.take(3, &lent.image, lent.windows.show(), &mut lent.store.lock().unwrap());
        }
    }),
    ("mmix_go_back", |subject, lent| {
        if let Call::Step(_) = lent.case.call {
            let store = lent.store.lock().unwrap();
            subject.go_back(3, &mut lent.image, lent.windows.lend(), &store);
        }
    }),
    ("mmix_branch_field", |subject, lent| field(subject, lent, Kind::Branch)),
    ("mmix_jump_field", |subject, lent| field(subject, lent, Kind::Jump)),
];

/// Pairs of rL, rG, rA and any number with any value, as many as X says, of a step; none for another call.
fn pairs(case: &Case) -> Vec<u64> {
    let Call::Step(i) = case.call else { return Vec::new() };
    let pair = |k: u8| [[RL as u64, RG as u64, RA as u64, i.y as u64][k as usize % 4], i.z as u64];
    (0..i.x % 33).flat_map(pair).collect()
}

fn field(subject: &dyn Subject, lent: &Buffers, of: Kind) {
    if let Call::Field { kind, from, to } = lent.case.call
        && kind == of
    {
        let (mut backward, mut field) = (0, 0);
        subject.field(kind, from, to, Aim { backward: &mut backward, field: &mut field });
    }
}

/// The depth of each entry over one batch of rounds, the harness's own taken off.
fn depths(painted: &mut Painted, reference: &mut Reference, seed: u64, batch: u64) -> [usize; ENTRIES.len()] {
    let mut cases = Vec::new();
    for number in BATCH * batch..BATCH * (batch + 1) {
        round(seed, number, &mut |case| {
            cases.push(case.clone());
            reference.answer(case).ok()
        });
    }
    let store = Arc::new(Mutex::new(vec![0; STORE_LEN]));
    let mut deep = |subject: &dyn Subject, entry| {
        let mut cases: Vec<Buffers> = cases.iter().map(|case| Buffers::of(case, &store)).collect();
        painted.depth(&mut Work { subject, entry, cases: &mut cases })
    };
    ENTRIES.map(|(_, entry)| deep(&chosen(), entry).saturating_sub(deep(&Nothing, entry)))
}

fn main() -> ExitCode {
    let number = |k, otherwise: u64| env::args().nth(k).map_or(otherwise, |text| text.parse().expect("a number"));
    let (cases, seed) = (number(1, 100_000), number(2, 2009));
    let batches = cases.div_ceil(BATCH * ROUND);
    let (mut painted, mut reference) = (Box::new(Painted([0; 2 * STACK])), Reference::new());
    let mut most = [0; ENTRIES.len()];
    for batch in 0..batches {
        let depths = depths(&mut painted, &mut reference, seed, batch);
        most.iter_mut().zip(depths).for_each(|(most, depth)| *most = depth.max(*most));
    }
    println!(
        "\nBytes of stack at the deepest, {} cases, seed {seed}; subject: {}.\n",
        batches * BATCH * ROUND,
        chosen().name()
    );
    println!("| function | bytes |\n|---|---|");
    ENTRIES.iter().zip(&most).for_each(|((name, _), most)| println!("| {name} | {most} |"));
    if most.iter().all(|most| *most <= MOST) { ExitCode::SUCCESS } else { ExitCode::FAILURE }
}
