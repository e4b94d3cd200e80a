//! The taken Rust files as one crate with std's own hash map: what `speed` measures.

#![allow(warnings)]

include!(concat!(env!("OUT_DIR"), "/tree/root.rs"));
