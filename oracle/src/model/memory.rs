//! Memory: two lent windows, A and B, each with octabytes at distances from its base that wrap at 2^64. Of several tasks each has a part of B alone.

use std::ops::Range;

use crate::lent::{Bases, Lent};
use crate::state::{WINDOW_MAX, octabyte};

/// Base and bytes of one window.
pub struct Window<'a> {
    pub base: u64,
    pub bytes: &'a [u8],
}

/// The octabyte of an address: its low three bits are dropped.
pub fn octabyte_of(address: u64) -> u64 {
    address - address % 8
}

/// The distance of an address's octabyte from a base.
fn offset(base: u64, address: u64) -> u64 {
    octabyte_of(address).wrapping_sub(base)
}

impl Window<'_> {
    /// The length is a multiple of 8 up to 1,048,576, the base a multiple of 8.
    fn obeys(&self) -> bool {
        self.bytes.len().is_multiple_of(8) && self.bytes.len() <= WINDOW_MAX && self.base.is_multiple_of(8)
    }

    fn holds(&self, address: u64) -> bool {
        offset(self.base, address) < self.bytes.len() as u64
    }
}

/// Which of the two holds an octabyte.
#[derive(Clone, Copy, PartialEq, Eq)]
pub enum Which {
    A,
    B,
}

pub struct Memory<'a> {
    pub a: Window<'a>,
    pub b: Window<'a>,
    /// The part of B that a task has, in bytes from its base; none: all of it.
    own: Option<Range<u64>>,
}

impl<'a> Memory<'a> {
    pub fn of(at: Bases, a: &'a [u8], b: &'a [u8]) -> Self {
        Self { a: Window { base: at.a, bytes: a }, b: Window { base: at.b, bytes: b }, own: None }
    }

    /// The same for a task that has a part of B.
    pub fn of_task(at: Bases, a: &'a [u8], b: &'a [u8], own: Range<u64>) -> Self {
        Self { own: Some(own), ..Self::of(at, a, b) }
    }

    /// Whether an address's octabyte lies in B outside the task's part.
    pub fn is_foreign(&self, address: u64) -> bool {
        let outside = |own: &Range<u64>| !own.contains(&offset(self.b.base, address));
        self.b.holds(address) && self.own.as_ref().is_some_and(outside)
    }

    /// Both windows keep their rule, an empty one too.
    pub fn obeys(&self) -> bool {
        self.a.obeys() && self.b.obeys()
    }

    /// Some octabyte of the one lies in the other.
    pub fn shares(&self) -> bool {
        run(self.a.base, self.a.bytes.len() as u64 / 8).iter().any(|octabyte| self.b.holds(*octabyte))
    }

    fn window(&self, which: Which) -> &Window<'a> {
        match which {
            Which::A => &self.a,
            Which::B => &self.b,
        }
    }

    pub fn which(&self, address: u64) -> Option<Which> {
        let lent = |which: &Which| self.window(*which).holds(address);
        [Which::A, Which::B].into_iter().find(lent).filter(|_| !self.is_foreign(address))
    }

    pub fn holds(&self, address: u64) -> bool {
        self.which(address).is_some()
    }

    /// Where in the window that holds it an address's octabyte stands.
    pub fn place(&self, which: Which, address: u64) -> usize {
        offset(self.window(which).base, address) as usize
    }

    /// The octabyte of an address in one of the two.
    pub fn read(&self, address: u64) -> u64 {
        let which = self.which(address).expect("an octabyte inside");
        let at = self.place(which, address);
        octabyte(&self.window(which).bytes[at..at + 8])
    }

    /// Those of the addresses' octabytes that lie in neither.
    pub fn missing(&self, addresses: &[u64]) -> Vec<u64> {
        addresses.iter().map(|a| octabyte_of(*a)).filter(|a| !self.holds(*a)).collect()
    }
}

/// Put stores, address and value, into the windows that hold them.
pub fn apply(stores: &[(u64, u64)], lent: Lent) {
    let Lent { at, a, b } = lent;
    for &(address, value) in stores {
        let memory = Memory::of(at, a, b);
        let which = memory.which(address).expect("an octabyte inside");
        let place = memory.place(which, address);
        let bytes = if which == Which::A { &mut *a } else { &mut *b };
        bytes[place..place + 8].copy_from_slice(&value.to_be_bytes());
    }
}

/// The addresses of `n` octabytes from `first` up.
pub fn run(first: u64, n: u64) -> Vec<u64> {
    (0..n).map(|i| octabyte_of(first.wrapping_add(8 * i))).collect()
}
