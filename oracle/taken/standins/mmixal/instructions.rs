//! Stand-in: the assembler's instruction, of which no value is made.

#[derive(Clone)]
pub enum MMixInstruction {}
