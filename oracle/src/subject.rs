//! The machine that is compared with the Rust: functions that equal those of include/mmix.h. 0 is done,
//! 1 to 20 are 01's numbers; 21 is request 2's, 22 and 23 are request 5's, 24 and 25 request 6's, 26 to 28 request 8's, 29 to 31 requests 9's, 10's and 11's, 32 and 33 request 12's.

use crate::case::{Instruction, Kind};
use crate::compared::Model;
use crate::guards::{Guard, Guarded};
use crate::lent::{Lent, Shown};
#[cfg(feature = "library")]
use crate::library::Library;
use crate::state::State;

/// A state in parts; marks and mask are only read.
pub struct Parts<'a> {
    pub general: &'a mut [u64; 256],
    pub special: &'a mut [u64; 32],
    pub pc: &'a mut u64,
    pub halt: &'a mut u64,
    pub marks: u64,
    pub mask: u64,
}

impl<'a> From<&'a mut State> for Parts<'a> {
    fn from(state: &'a mut State) -> Self {
        let State { general, special, pc, halt, marks, mask } = state;
        Self { general, special, pc, halt, marks: *marks, mask: *mask }
    }
}

/// Where the context reader puts the part that it found, and of which window: 0 is A, 1 is B.
pub struct Found<'a> {
    pub which: &'a mut u64,
    pub start: &'a mut usize,
    pub length: &'a mut usize,
}

/// Where the search for a field puts direction and field.
pub struct Aim<'a> {
    pub backward: &'a mut u8,
    pub field: &'a mut u32,
}

/// Where a call of several tasks puts each task's count and its refusal or 0.
pub struct Told<'a> {
    pub counts: &'a mut [u64; 8],
    pub refusals: &'a mut [u64; 8],
}

pub trait Subject {
    fn name(&self) -> &'static str;
    fn initialize(&self, image: &mut [u8]) -> u64;
    fn initialize_at(&self, image: &mut [u8], stack_start: u64) -> u64;
    fn step(&self, i: Instruction, image: &mut [u8], lent: Lent) -> u64;
    fn exceptions(&self, flags: u8, of: Instruction, y_val: u64, z_val: u64, image: &mut [u8]) -> u64;
    fn context(&self, address: u64, shown: Shown, found: Found) -> u64;
    fn step_lent(&self, i: Instruction, state: &mut State, lent: Lent) -> u64;
    fn step_parts(&self, i: Instruction, parts: Parts, lent: Lent) -> u64;
    fn run(&self, grant: u64, image: &mut [u8], lent: Lent, done: &mut u64) -> u64;
    fn run_parts(&self, grant: u64, parts: Parts, lent: Lent, done: &mut u64) -> u64;
    fn exceptions_parts(&self, flags: u8, of: Instruction, y_val: u64, z_val: u64, parts: Parts) -> u64;
    fn tasks(&self, q: u64, grant: u64, images: &mut [u8], parts: &[u64], lent: Lent, told: Told) -> u64;
    fn put_set(&self, image: &mut [u8], pairs: &[u8], place: &mut u64) -> u64;
    fn put_set_parts(&self, parts: Parts, pairs: &[u64], place: &mut u64) -> u64;
    fn decode(&self, image: &[u8], state: &mut State) -> u64;
    fn encode(&self, state: &State, image: &mut [u8]) -> u64;
    fn field(&self, kind: Kind, from: u64, to: u64, aim: Aim) -> u64;
    fn take(&self, name: u64, image: &[u8], shown: Shown, store: &mut [u8]) -> u64;
    fn go_back(&self, name: u64, image: &mut [u8], lent: Lent, store: &[u8]) -> u64;
}

/// The subject that counts in this build: the library where it is linked, else the model.
pub fn chosen() -> impl Subject {
    #[cfg(feature = "library")]
    return Library { empty_is_null: true };
    #[cfg(not(feature = "library"))]
    Model
}

/// All subjects of this build: the chosen one first, and the model.
pub fn subjects() -> Vec<Box<dyn Subject>> {
    if cfg!(feature = "library") { vec![Box::new(chosen()), Box::new(Model)] } else { vec![Box::new(Model)] }
}

/// The chosen one with guarded buffers. Between pages, an empty one is lent as an address that can't be touched.
pub fn guarded(guard: Guard) -> Box<dyn Subject> {
    #[cfg(feature = "library")]
    let chosen = Library { empty_is_null: guard != Guard::Pages };
    #[cfg(not(feature = "library"))]
    let chosen = Model;
    Box::new(Guarded::new(Box::new(chosen), guard))
}
