//! Stand-in: the assembler's encoder, which nothing here calls.

use crate::mmixal::MMixInstruction;

pub fn encode_instruction_bytes(_instruction: &MMixInstruction) -> Vec<u8> {
    Vec::new()
}
