//! The proved library through its C functions (include/mmix.h).

use std::ptr;

use crate::case::{Instruction, Kind};
use crate::lent::{Bases, Lent, Shown};
use crate::state::State;
use crate::subject::{Aim, Found, Parts, Subject, Told};

unsafe extern "C" {
    fn mmix_initialize(image: *mut u8, image_len: usize) -> u64;
    fn mmix_initialize_at(image: *mut u8, image_len: usize, stack_start: u64) -> u64;
    fn mmix_step(
        base_a: u64,
        base_b: u64,
        op: u8,
        x: u8,
        y: u8,
        z: u8,
        image: *mut u8,
        image_len: usize,
        a: *mut u8,
        a_len: usize,
        b: *mut u8,
        b_len: usize,
    ) -> u64;
    fn mmix_exceptions(
        flags: u8,
        op: u8,
        x: u8,
        y: u8,
        z: u8,
        y_val: u64,
        z_val: u64,
        image: *mut u8,
        image_len: usize,
    ) -> u64;
    fn mmix_context(
        base_a: u64,
        base_b: u64,
        address: u64,
        a: *const u8,
        a_len: usize,
        b: *const u8,
        b_len: usize,
        which: *mut u64,
        start: *mut usize,
        length: *mut usize,
    ) -> u64;
    fn mmix_step_lent(
        base_a: u64,
        base_b: u64,
        op: u8,
        x: u8,
        y: u8,
        z: u8,
        state: *mut State,
        a: *mut u8,
        a_len: usize,
        b: *mut u8,
        b_len: usize,
    ) -> u64;
    fn mmix_step_parts(
        base_a: u64,
        base_b: u64,
        op: u8,
        x: u8,
        y: u8,
        z: u8,
        general: *mut [u64; 256],
        special: *mut [u64; 32],
        pc: *mut u64,
        halt: *mut u64,
        marks: u64,
        mask: u64,
        a: *mut u8,
        a_len: usize,
        b: *mut u8,
        b_len: usize,
    ) -> u64;
    fn mmix_run(
        base_a: u64,
        base_b: u64,
        grant: u64,
        image: *mut u8,
        image_len: usize,
        a: *mut u8,
        a_len: usize,
        b: *mut u8,
        b_len: usize,
        done: *mut u64,
    ) -> u64;
    fn mmix_run_parts(
        base_a: u64,
        base_b: u64,
        grant: u64,
        general: *mut [u64; 256],
        special: *mut [u64; 32],
        pc: *mut u64,
        halt: *mut u64,
        marks: u64,
        mask: u64,
        a: *mut u8,
        a_len: usize,
        b: *mut u8,
        b_len: usize,
        done: *mut u64,
    ) -> u64;
    fn mmix_exceptions_parts(
        flags: u8,
        op: u8,
        x: u8,
        y: u8,
        z: u8,
        y_val: u64,
        z_val: u64,
        general: *mut [u64; 256],
        special: *mut [u64; 32],
        pc: *mut u64,
        halt: *mut u64,
        marks: u64,
        mask: u64,
    ) -> u64;
    fn mmix_tasks(
        base_a: u64,
        base_b: u64,
        q: u64,
        grant: u64,
        images: *mut u8,
        images_len: usize,
        parts: *const u64,
        parts_len: usize,
        a: *mut u8,
        a_len: usize,
        b: *mut u8,
        b_len: usize,
        counts: *mut [u64; 8],
        refusals: *mut [u64; 8],
    ) -> u64;
    fn mmix_put_set(image: *mut u8, image_len: usize, pairs: *const u8, pairs_len: usize, place: *mut u64) -> u64;
    fn mmix_put_set_parts(
        general: *mut [u64; 256],
        special: *mut [u64; 32],
        pc: *mut u64,
        halt: *mut u64,
        marks: u64,
        mask: u64,
        pairs: *const u64,
        pairs_len: usize,
        place: *mut u64,
    ) -> u64;
    fn mmix_decode(image: *const u8, image_len: usize, state: *mut State) -> u64;
    fn mmix_encode(state: *const State, image: *mut u8, image_len: usize) -> u64;
    fn mmix_branch_field(from: u64, to: u64, backward: *mut u8, field: *mut u32) -> u64;
    fn mmix_jump_field(from: u64, to: u64, backward: *mut u8, field: *mut u32) -> u64;
    fn mmix_take(
        base_a: u64,
        base_b: u64,
        name: u64,
        image: *const u8,
        image_len: usize,
        a: *const u8,
        a_len: usize,
        b: *const u8,
        b_len: usize,
        store: *mut u8,
        store_len: usize,
    ) -> u64;
    fn mmix_go_back(
        base_a: u64,
        base_b: u64,
        name: u64,
        image: *mut u8,
        image_len: usize,
        a: *mut u8,
        a_len: usize,
        b: *mut u8,
        b_len: usize,
        store: *const u8,
        store_len: usize,
    ) -> u64;
}

pub struct Library {
    /// An empty slice is lent as null, else as where it stands.
    pub empty_is_null: bool,
}

impl Library {
    fn lent<T>(&self, slice: &[T]) -> *const T {
        if slice.is_empty() && self.empty_is_null { ptr::null() } else { slice.as_ptr() }
    }

    fn lent_mut(&self, bytes: &mut [u8]) -> *mut u8 {
        if bytes.is_empty() && self.empty_is_null { ptr::null_mut() } else { bytes.as_mut_ptr() }
    }
}

// SAFETY, for each call below: every pointer is to memory of the length given beside it, or of the size that
// the header fixes, lent by a reference that lives through the call; no two of them overlap.
impl Subject for Library {
    fn name(&self) -> &'static str {
        "library"
    }

    #[inline]
    fn initialize(&self, image: &mut [u8]) -> u64 {
        unsafe { mmix_initialize(self.lent_mut(image), image.len()) }
    }

    #[inline]
    fn initialize_at(&self, image: &mut [u8], stack_start: u64) -> u64 {
        unsafe { mmix_initialize_at(self.lent_mut(image), image.len(), stack_start) }
    }

    #[inline]
    fn step(&self, i: Instruction, image: &mut [u8], lent: Lent) -> u64 {
        let (Instruction { op, x, y, z }, Lent { at, a, b }) = (i, lent);
        let (bytes, len) = (self.lent_mut(image), image.len());
        let (in_a, in_b) = (self.lent_mut(a), self.lent_mut(b));
        unsafe { mmix_step(at.a, at.b, op, x, y, z, bytes, len, in_a, a.len(), in_b, b.len()) }
    }

    #[inline]
    fn exceptions(&self, flags: u8, of: Instruction, y_val: u64, z_val: u64, image: &mut [u8]) -> u64 {
        let Instruction { op, x, y, z } = of;
        unsafe { mmix_exceptions(flags, op, x, y, z, y_val, z_val, self.lent_mut(image), image.len()) }
    }

    #[inline]
    fn context(&self, address: u64, shown: Shown, found: Found) -> u64 {
        let (Shown { at: Bases { a: base_a, b: base_b }, a, b }, Found { which, start, length }) = (shown, found);
        let (in_a, in_b) = (self.lent(a), self.lent(b));
        unsafe { mmix_context(base_a, base_b, address, in_a, a.len(), in_b, b.len(), which, start, length) }
    }

    #[inline]
    fn step_lent(&self, i: Instruction, state: &mut State, lent: Lent) -> u64 {
        let (Instruction { op, x, y, z }, Lent { at, a, b }) = (i, lent);
        let (in_a, in_b) = (self.lent_mut(a), self.lent_mut(b));
        unsafe { mmix_step_lent(at.a, at.b, op, x, y, z, state, in_a, a.len(), in_b, b.len()) }
    }

    #[inline]
    fn step_parts(&self, i: Instruction, parts: Parts, lent: Lent) -> u64 {
        let (Instruction { op, x, y, z }, Lent { at, a, b }) = (i, lent);
        let Parts { general, special, pc, halt, marks, mask } = parts;
        let (in_a, in_b) = (self.lent_mut(a), self.lent_mut(b));
        unsafe {
            mmix_step_parts(
                at.a,
                at.b,
                op,
                x,
                y,
                z,
                general,
                special,
                pc,
                halt,
                marks,
                mask,
                in_a,
                a.len(),
                in_b,
                b.len(),
            )
        }
    }

    #[inline]
    fn run(&self, grant: u64, image: &mut [u8], lent: Lent, done: &mut u64) -> u64 {
        let Lent { at, a, b } = lent;
        let (bytes, len) = (self.lent_mut(image), image.len());
        let (in_a, in_b) = (self.lent_mut(a), self.lent_mut(b));
        unsafe { mmix_run(at.a, at.b, grant, bytes, len, in_a, a.len(), in_b, b.len(), done) }
    }

    #[inline]
    fn run_parts(&self, grant: u64, parts: Parts, lent: Lent, done: &mut u64) -> u64 {
        let (Parts { general, special, pc, halt, marks, mask }, Lent { at, a, b }) = (parts, lent);
        let (in_a, in_b) = (self.lent_mut(a), self.lent_mut(b));
        let (a_len, b_len) = (a.len(), b.len());
        unsafe {
            mmix_run_parts(at.a, at.b, grant, general, special, pc, halt, marks, mask, in_a, a_len, in_b, b_len, done)
        }
    }

    #[inline]
    fn exceptions_parts(&self, flags: u8, of: Instruction, y_val: u64, z_val: u64, parts: Parts) -> u64 {
        let Instruction { op, x, y, z } = of;
        let Parts { general, special, pc, halt, marks, mask } = parts;
        unsafe { mmix_exceptions_parts(flags, op, x, y, z, y_val, z_val, general, special, pc, halt, marks, mask) }
    }

    #[inline]
    fn tasks(&self, q: u64, grant: u64, images: &mut [u8], parts: &[u64], lent: Lent, told: Told) -> u64 {
        let (Lent { at, a, b }, Told { counts, refusals }) = (lent, told);
        let (bytes, len, pairs) = (self.lent_mut(images), images.len(), self.lent(parts));
        let (in_a, in_b, a_len, b_len) = (self.lent_mut(a), self.lent_mut(b), a.len(), b.len());
        let count = parts.len();
        unsafe {
            mmix_tasks(at.a, at.b, q, grant, bytes, len, pairs, count, in_a, a_len, in_b, b_len, counts, refusals)
        }
    }

    #[inline]
    fn put_set(&self, image: &mut [u8], pairs: &[u8], place: &mut u64) -> u64 {
        unsafe { mmix_put_set(self.lent_mut(image), image.len(), self.lent(pairs), pairs.len(), place) }
    }

    #[inline]
    fn put_set_parts(&self, parts: Parts, pairs: &[u64], place: &mut u64) -> u64 {
        let Parts { general, special, pc, halt, marks, mask } = parts;
        let (given, len) = (self.lent(pairs), pairs.len());
        unsafe { mmix_put_set_parts(general, special, pc, halt, marks, mask, given, len, place) }
    }

    #[inline]
    fn decode(&self, image: &[u8], state: &mut State) -> u64 {
        unsafe { mmix_decode(self.lent(image), image.len(), state) }
    }

    #[inline]
    fn encode(&self, state: &State, image: &mut [u8]) -> u64 {
        unsafe { mmix_encode(state, self.lent_mut(image), image.len()) }
    }

    #[inline]
    fn field(&self, kind: Kind, from: u64, to: u64, aim: Aim) -> u64 {
        match kind {
            Kind::Branch => unsafe { mmix_branch_field(from, to, aim.backward, aim.field) },
            Kind::Jump => unsafe { mmix_jump_field(from, to, aim.backward, aim.field) },
        }
    }

    #[inline]
    fn take(&self, name: u64, image: &[u8], shown: Shown, store: &mut [u8]) -> u64 {
        let Shown { at, a, b } = shown;
        let (bytes, len) = (self.lent(image), image.len());
        let (in_a, in_b, room) = (self.lent(a), self.lent(b), self.lent_mut(store));
        unsafe { mmix_take(at.a, at.b, name, bytes, len, in_a, a.len(), in_b, b.len(), room, store.len()) }
    }

    #[inline]
    fn go_back(&self, name: u64, image: &mut [u8], lent: Lent, store: &[u8]) -> u64 {
        let Lent { at, a, b } = lent;
        let (bytes, len) = (self.lent_mut(image), image.len());
        let (in_a, in_b, room) = (self.lent_mut(a), self.lent_mut(b), self.lent(store));
        unsafe { mmix_go_back(at.a, at.b, name, bytes, len, in_a, a.len(), in_b, b.len(), room, store.len()) }
    }
}
