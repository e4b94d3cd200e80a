//! The tests of the harness as one program, which is linked once.

mod common;
mod fields;
mod guards;
mod knuth;
mod knuth_arithmetic;
mod masks;
mod points;
mod pop_trace;
mod runs;
mod sets;
mod store;
mod tasks;
mod windows;
