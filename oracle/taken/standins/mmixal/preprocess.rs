//! Stand-in: the assembler's preparation of a source text, which nothing here calls.

use super::{DebugDirectiveOverflow, MMixAssembler, MMixInstruction};

impl MMixAssembler {
    pub(super) fn strip_byte_order_mark(source: &str) -> &str {
        source
    }

    pub(super) fn blank_whole_line_comments(source: &str) -> String {
        source.to_string()
    }

    pub(super) fn preprocess_debug(
        source: &str,
        _filename: &str,
        _start_index: usize,
    ) -> (String, Vec<Vec<u8>>, DebugDirectiveOverflow) {
        (source.to_string(), Vec::new(), None)
    }

    pub(super) fn instruction_size(instruction: &MMixInstruction) -> u64 {
        match *instruction {}
    }
}
