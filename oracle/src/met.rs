//! What a case and its answer tell, for the situations that are asked of them.

use crate::case::{Call, Case, Instruction};
use crate::lent::{Window, Windows};
use crate::numbers::{self, LEAST};
use crate::opcodes::*;
use crate::operands::{self, V_ENABLED, around_limit};
use crate::reference::Answer;
use crate::state::*;

const PUSHES: [u8; 4] = [PUSHGO, PUSHGOI, PUSHJ, PUSHJB];
const CLAIMS: [u8; 5] = [GO, GOI, GETA, GETAB, GET];

/// A case with its answer and what the tests ask of them.
pub struct Met<'a> {
    pub case: &'a Case,
    pub answer: &'a Answer,
    pub i: Instruction,
}

impl Met<'_> {
    pub fn before(&self, register: usize) -> u64 {
        self.case.state.special[register]
    }

    pub fn after(&self, register: usize) -> u64 {
        self.answer.state.special[register]
    }

    pub fn is(&self, opcodes: &[u8], reply: u64) -> bool {
        matches!(self.case.call, Call::Step(_)) && opcodes.contains(&self.i.op) && self.answer.reply == reply
    }

    pub fn branch(&self, taken: bool) -> bool {
        let on = self.case.state.pc.wrapping_add(4);
        (BN..=PBEVB).contains(&self.i.op) && self.answer.reply == 0 && (self.answer.state.pc != on) == taken
    }

    pub fn pushed(&self) -> bool {
        self.is(&PUSHES, 0)
    }

    /// The hole of a PUSH that was done.
    pub fn hole(&self) -> u64 {
        self.after(RO).wrapping_sub(self.before(RO)) / 8 - 1
    }

    pub fn popped(&self) -> bool {
        self.is(&[POP], 0) && self.before(RO) > STACK_START
    }

    /// The hole of a POP that was done with a frame.
    pub fn popped_hole(&self) -> u64 {
        self.before(RO).wrapping_sub(self.after(RO)) / 8 - 1
    }

    pub fn octabyte_at(&self, address: u64) -> Option<u64> {
        self.case.windows.octabyte_at(address)
    }

    /// The packed octabyte that UNSAVE asks for, and its local count.
    pub fn packed(&self) -> Option<u64> {
        self.octabyte_at(self.case.state.general[self.i.z as usize])
    }

    pub fn count(&self) -> Option<u64> {
        let rg = self.packed()? >> 56;
        self.octabyte_at(self.case.state.general[self.i.z as usize].wrapping_sub(8 * (269 - rg)))
    }

    pub fn marginals(&self) -> bool {
        self.case.state.general[self.before(RL) as usize..self.before(RG) as usize].iter().any(|v| *v != 0)
    }

    /// The octabytes touched lie on both sides of the end of memory.
    pub fn across(&self) -> bool {
        let touched = &self.answer.touched;
        touched.first() == Some(&0) && touched.last() == Some(&(u64::MAX - 7))
    }

    pub fn loads(&self, reply: u64) -> bool {
        (LDB..=LDOUI).contains(&self.i.op) && self.answer.reply == reply
    }

    pub fn stores(&self, reply: u64) -> bool {
        (STB..=STOUI).contains(&self.i.op) && self.answer.reply == reply
    }

    /// Done, or 19 of a store: the operand was reached.
    pub fn reached(&self) -> bool {
        self.loads(0) || self.stores(0) || self.stores(19)
    }

    pub fn outside(&self) -> bool {
        self.loads(6) || self.stores(6)
    }

    /// A of a load or store.
    pub fn address(&self) -> u64 {
        operands::address(&self.case.state, self.i)
    }

    /// For one of the windows, A's octabyte is its first or last, or the one before it or after it.
    pub fn is_first(&self) -> bool {
        self.in_a_window(|w, distance| w.size() > 0 && distance == 0)
    }

    pub fn is_last(&self) -> bool {
        self.in_a_window(|w, distance| w.size() > 0 && distance == w.size() - 8)
    }

    pub fn is_before(&self) -> bool {
        self.in_a_window(|_, distance| distance == 8u64.wrapping_neg())
    }

    pub fn is_after(&self) -> bool {
        self.in_a_window(|w, distance| w.size() > 0 && distance == w.size())
    }

    fn in_a_window(&self, test: fn(&Window, u64) -> bool) -> bool {
        let Windows { a, b } = &self.case.windows;
        [a, b].iter().any(|w| test(w, w.distance(self.address())))
    }

    /// What a load left in $X.
    pub fn loaded(&self) -> u64 {
        self.answer.state.general[self.i.x as usize]
    }

    /// $X before the step is the k-th of those at the limit of a signed store of less than an octabyte.
    pub fn at_limit(&self, k: usize) -> bool {
        let value = self.case.state.general[self.i.x as usize];
        raises(self.i.op) && self.reached() && value == around_limit(operands::limit(self.i.op))[k]
    }

    /// A store raised V, enabled or not.
    pub fn raised(&self, reply: u64, enabled: bool) -> bool {
        let value = self.case.state.general[self.i.x as usize] as i64 as i128;
        let limit = operands::limit(self.i.op) as i128;
        let fits = -limit <= value && value < limit;
        let as_told = (self.before(RA) & V_ENABLED != 0) == enabled;
        raises(self.i.op) && !fits && self.answer.reply == reply && as_told
    }

    /// An arithmetic step of one of these operations, register or immediate form, that was done or answered 19.
    pub fn works(&self, operations: &[u8]) -> bool {
        operations.contains(&even(self.i.op)) && matches!(self.answer.reply, 0 | 19)
    }

    /// An arithmetic step with a reply.
    pub fn arithmetic(&self, reply: u64) -> bool {
        is_arithmetic(self.i.op) && self.answer.reply == reply
    }

    /// The operands of an arithmetic step: y and z, also as signed numbers.
    pub fn y(&self) -> u64 {
        numbers::values(&self.case.state, self.i)[0]
    }

    pub fn z(&self) -> u64 {
        numbers::values(&self.case.state, self.i)[1]
    }

    pub fn signed(&self) -> [i128; 2] {
        numbers::values(&self.case.state, self.i).map(|v| v as i64 as i128)
    }

    /// The exact sum, difference or product is this number.
    pub fn exactly(&self, operation: u8, number: i128) -> bool {
        let [y, z] = self.signed();
        let exact = match operation {
            ADD => y + z,
            MUL => y * z,
            _ => y - z,
        };
        self.works(&[operation]) && exact == number
    }

    /// A division whose remainder is not 0, with operands of these signs.
    pub fn divides(&self, y_negative: bool, z_negative: bool) -> bool {
        let [y, z] = self.signed();
        self.works(&[DIV]) && z != 0 && y % z != 0 && (y < 0, z < 0) == (y_negative, z_negative)
    }

    /// y × 2^z is a signed octabyte.
    pub fn fits_shifted(&self) -> bool {
        let exact = self.signed()[0] << self.z().min(64);
        (-(LEAST as i128)..LEAST as i128).contains(&exact)
    }

    /// An arithmetic step added a flag to rA, or took the trip to its vector.
    pub fn adds(&self, flag: u64) -> bool {
        self.arithmetic(0) && !self.before(RA) & self.after(RA) == flag
    }

    pub fn trips(&self, vector: u64) -> bool {
        self.arithmetic(0) && self.answer.state.pc == vector && self.case.state.pc.wrapping_add(4) != vector
    }

    /// 19 of an arithmetic step, for D or for V.
    pub fn stops(&self, for_d: bool) -> bool {
        self.arithmetic(19) && (even(self.i.op) == DIV && self.z() == 0) == for_d
    }

    pub fn x_among(&self) -> bool {
        let y_counts = !matches!(even(self.i.op), NEG | NEGU);
        self.x_is_y() && y_counts || self.x_is_z()
    }

    pub fn marginal(&self, register: u8) -> bool {
        self.before(RL) <= register as u64 && (register as u64) < self.before(RG)
    }

    /// X is Y, or X is Z where $Z counts.
    pub fn x_is_y(&self) -> bool {
        self.i.x == self.i.y
    }

    pub fn x_is_z(&self) -> bool {
        self.i.x == self.i.z && self.i.op.is_multiple_of(2)
    }

    /// A register was claimed, up to the top of the locals.
    pub fn claims(&self, x: u64) -> bool {
        self.is(&CLAIMS, 0) && self.before(RL) <= x && self.i.x as u64 == x && x < self.before(RG)
    }
}
