//! Stand-in: the writer of object files, which nothing here calls.

use std::collections::HashMap;

use crate::mmixal::MMixInstruction;

pub struct MmoGenerator;

impl MmoGenerator {
    pub fn new(_code: Vec<(u64, MMixInstruction)>, _labels: HashMap<String, u64>) -> Self {
        Self
    }

    pub fn with_debug_strings(self, _strings: Vec<Vec<u8>>) -> Self {
        self
    }

    pub fn with_greg_inits(self, _inits: Vec<(u8, u64)>) -> Self {
        self
    }

    pub fn generate(self) -> Vec<u8> {
        Vec::new()
    }
}
