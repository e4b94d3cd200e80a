//! The taken Rust files as one crate, with a memory that notes what is touched (see standins/facade).

#![allow(warnings)]

extern crate facade as std;

include!(concat!(env!("OUT_DIR"), "/tree/root.rs"));
