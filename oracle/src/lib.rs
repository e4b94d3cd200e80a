//! Differential harness: the Rust register machine, unchanged, beside another one that must equal it.
//!
//! - `state`, `lent`, `opcodes`, `case`: a machine state with its image of bytes; the two windows; opcodes by name; one call
//!   with all that it is given, and its one-line text.
//! - `reference`, `fetched`: the Rust's answer to a case, the model's at an added opcode, with the octabytes that it touched; to
//!   a run, instruction by instruction.
//! - `subject`: the functions that are compared; `model` (01 as a program) and `library` (C) offer them, and
//!   `guards` lends each of their buffers in a guarded place (`areas`).
//! - `compare`: one case on all sides. `shrink`: a smaller case that still differs.
//! - `random`, `states`, `windows`, `operands`, `numbers`, `fields`, `rounds`, `chains`, `programs`, `sweep`: the cases. `starts`, `points`:
//!   short ones. `histories`, `ledger`: calls on one store, and what they must answer. `sets`: sets of special registers. `masks`: states that
//!   hide registers, and images of both lengths. `tasks`: calls of several tasks. `tally`, `situations`, `met`, `lendings`, `runs`: the counts.

// The model that is compared: `model`, or a copy with a fault in it (build.rs).
#[cfg(changed_model)]
include!(concat!(env!("OUT_DIR"), "/compared.rs"));
#[cfg(not(changed_model))]
pub use model as compared;

pub mod areas;
pub mod case;
pub mod chains;
pub mod compare;
pub mod fetched;
pub mod fields;
pub mod guards;
pub mod histories;
pub mod ledger;
pub mod lendings;
pub mod lent;
#[cfg(feature = "library")]
pub mod library;
pub mod masks;
pub mod met;
pub mod model;
pub mod numbers;
pub mod opcodes;
pub mod operands;
pub mod points;
pub mod programs;
pub mod random;
pub mod reference;
pub mod rounds;
pub mod runs;
pub mod sets;
pub mod shrink;
pub mod situations;
pub mod starts;
pub mod state;
pub mod states;
pub mod subject;
pub mod sweep;
pub mod tally;
pub mod tasks;
pub mod windows;
