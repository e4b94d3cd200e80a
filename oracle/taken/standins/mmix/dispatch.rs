//! Stand-in for the root of `dispatch`. It stands where the arms and the fields can be reached and opens
//! them to the harness: a state is placed, one arm is entered, a state is read off.

use super::MMix;
use crate::mmixal::Opcode;

mod control;
mod system;

impl MMix {
    /// Enter `dispatch_control`. An opcode that has no arm there panics.
    #[inline]
    pub fn enter_control(&mut self, opcode: Opcode, op: u8, x: u8, y: u8, z: u8) -> bool {
        self.dispatch_control(opcode, op, x, y, z)
    }

    /// Enter `dispatch_system`. An opcode that has no arm there panics.
    #[inline]
    pub fn enter_system(&mut self, opcode: Opcode, op: u8, x: u8, y: u8, z: u8) -> bool {
        self.dispatch_system(opcode, op, x, y, z)
    }

    /// Enter `raise_exceptions`.
    #[allow(clippy::too_many_arguments)]
    pub fn enter_exceptions(&mut self, flags: u8, op: u8, x: u8, y: u8, z: u8, y_val: u64, z_val: u64) -> bool {
        self.raise_exceptions(flags as u64, op, x, y, z, y_val, z_val)
    }

    /// Enter `unsave_context`.
    pub fn enter_unsave(&mut self, packed_addr: u64) -> bool {
        self.unsave_context(packed_addr)
    }

    /// Place registers, PC and halt code.
    pub fn place(&mut self, general: &[u64; 256], special: &[u64; 32], pc: u64, halt: u64) {
        self.general_regs = *general;
        self.special_regs = *special;
        self.pc = pc;
        self.exit_code = halt;
    }

    /// Place rA alone.
    pub fn place_ra(&mut self, value: u64) {
        self.set_special(super::SpecialReg::RA, value);
    }

    pub fn general(&self) -> &[u64; 256] {
        &self.general_regs
    }

    pub fn special(&self) -> &[u64; 32] {
        &self.special_regs
    }

    /// Forget all of memory.
    pub fn empty_memory(&mut self) {
        self.memory.clear();
    }

    /// Make exactly these addresses the loaded ones, whatever their bytes.
    pub fn place_loaded(&mut self, addresses: impl Iterator<Item = u64>) {
        self.loaded.clear();
        self.loaded.extend(addresses);
    }

    pub fn is_loaded(&self, address: u64) -> bool {
        self.loaded.contains(&address)
    }

    /// Fetch the instruction at PC and claim its $X.
    pub fn fetch_and_claim(&mut self) -> (u8, u8, u8, u8) {
        let (op, x, y, z) = self.fetch_instruction();
        if Self::writes_general_register_x(op) {
            self.claim_local(x);
        }
        (op, x, y, z)
    }

    /// One fetched instruction: fetch, decode, claim $X, enter the arm. The Rust's own prologue also refuses
    /// some operands and is not to be had; this is the least that any has to do.
    pub fn execute_instruction(&mut self) -> bool {
        let (op, x, y, z) = self.fetch_instruction();
        let Ok(opcode) = Opcode::try_from(op) else {
            return false;
        };
        if Self::writes_general_register_x(op) && opcode != Opcode::SAVE {
            self.claim_local(x);
        }
        self.dispatch(opcode, op, x, y, z)
    }

    fn dispatch(&mut self, opcode: Opcode, op: u8, x: u8, y: u8, z: u8) -> bool {
        match op {
            0x40..=0x5F | 0x9E | 0x9F | 0xBE | 0xBF | 0xF0..=0xF5 | 0xF8 => {
                self.dispatch_control(opcode, op, x, y, z)
            }
            0x00 | 0xF6 | 0xF7 | 0xF9..=0xFF => self.dispatch_system(opcode, op, x, y, z),
            _ => false,
        }
    }
}
