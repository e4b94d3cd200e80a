//! The two windows that a host lends, A and B: as a case has them, and as a call takes them. B is the stack's; a host with one
//! window lends it as B, and A is empty at 0.

use crate::state::octabyte;

/// A window as a case has it.
#[derive(Clone, PartialEq, Eq, Debug, Default)]
pub struct Window {
    pub base: u64,
    pub bytes: Vec<u8>,
}

impl Window {
    pub fn size(&self) -> u64 {
        self.bytes.len() as u64
    }

    /// The distance of an address's octabyte from the base.
    pub fn distance(&self, address: u64) -> u64 {
        (address & !7).wrapping_sub(self.base)
    }

    pub fn holds(&self, address: u64) -> bool {
        self.distance(address) < self.size()
    }

    /// The first address after it.
    pub fn end(&self) -> u64 {
        self.base.wrapping_add(self.size())
    }

    /// Whether it has octabytes on both sides of the end of memory.
    pub fn wraps(&self) -> bool {
        self.base != 0 && self.holds(0)
    }
}

#[derive(Clone, PartialEq, Eq, Debug, Default)]
pub struct Windows {
    pub a: Window,
    pub b: Window,
}

impl Windows {
    /// One window, lent as B.
    pub fn one(base: u64, bytes: Vec<u8>) -> Self {
        Self { a: Window::default(), b: Window { base, bytes } }
    }

    /// The window that holds an address's octabyte.
    pub fn holding(&self, address: u64) -> Option<&Window> {
        [&self.b, &self.a].into_iter().find(|w| w.holds(address))
    }

    pub fn holding_mut(&mut self, address: u64) -> Option<&mut Window> {
        [&mut self.b, &mut self.a].into_iter().find(|w| w.holds(address))
    }

    pub fn holds(&self, address: u64) -> bool {
        self.holding(address).is_some()
    }

    pub fn octabyte_at(&self, address: u64) -> Option<u64> {
        let window = self.holding(address)?;
        let at = window.distance(address) as usize;
        window.bytes.get(at..at + 8).map(octabyte)
    }

    /// Whether some octabyte lies in both: of two stretches of a circle that meet, one begins in the other.
    pub fn share(&self) -> bool {
        let Self { a, b } = self;
        !a.bytes.is_empty() && !b.bytes.is_empty() && (a.holds(b.base) || b.holds(a.base))
    }

    pub fn exchange(&mut self) {
        std::mem::swap(&mut self.a, &mut self.b);
    }

    pub fn at(&self) -> Bases {
        Bases { a: self.a.base, b: self.b.base }
    }

    pub fn lend(&mut self) -> Lent<'_> {
        Lent { at: self.at(), a: &mut self.a.bytes, b: &mut self.b.bytes }
    }

    pub fn show(&self) -> Shown<'_> {
        Shown { at: self.at(), a: &self.a.bytes, b: &self.b.bytes }
    }
}

/// The addresses of the two windows' first bytes.
#[derive(Clone, Copy, PartialEq, Eq, Debug)]
pub struct Bases {
    pub a: u64,
    pub b: u64,
}

/// Both windows as a step takes them.
pub struct Lent<'a> {
    pub at: Bases,
    pub a: &'a mut [u8],
    pub b: &'a mut [u8],
}

/// Both windows as the context reader takes them, which changes nothing.
#[derive(Clone, Copy)]
pub struct Shown<'a> {
    pub at: Bases,
    pub a: &'a [u8],
    pub b: &'a [u8],
}
