//! Situations of the two windows that a run has to meet: how they lie to each other, and which of them has the octabytes that
//! a step or the context reader touches.

use crate::case::{Call, Case};
use crate::lent::{Window, Windows};
use crate::opcodes::*;
use crate::reference::Answer;
use crate::state::{RO, WINDOW_MAX};

type Test = fn(&Lending) -> bool;

pub const LENDINGS: [(&str, Test); 71] = [
    ("PUSH, frame in A", |l| l.pushes(0) && l.lies_in(l.a())),
    ("PUSH, frame in B, A not empty", |l| l.pushes(0) && l.lies_in(l.b()) && l.a().size() > 0),
    ("PUSH, frame across both, A below", |l| l.pushes(0) && l.across(l.a(), l.b())),
    ("PUSH, frame across both, B below", |l| l.pushes(0) && l.across(l.b(), l.a())),
    ("PUSH, frame across both, met at 2^64", |l| l.pushes(0) && l.met_at_the_end()),
    ("PUSH, frame across both, rO misaligned", |l| l.pushes(0) && l.in_both() && l.misaligned()),
    ("PUSH, 6 though both have a part", |l| l.pushes(6) && l.in_both()),
    ("PUSH, 6 between the two", |l| l.pushes(6) && l.between()),
    ("POP, frame in A", |l| l.pops(0) && l.lies_in(l.a())),
    ("POP, frame in B, A not empty", |l| l.pops(0) && l.lies_in(l.b()) && l.a().size() > 0),
    ("POP, frame across both, A below", |l| l.pops(0) && l.across(l.a(), l.b())),
    ("POP, frame across both, B below", |l| l.pops(0) && l.across(l.b(), l.a())),
    ("POP, the hole alone in A", |l| l.pops(0) && l.across(l.b(), l.a()) && l.a().base == l.below_ro()),
    ("POP, the hole alone in B", |l| l.pops(0) && l.across(l.a(), l.b()) && l.b().base == l.below_ro()),
    ("POP, 6 though both have a part", |l| l.pops(6) && l.in_both()),
    ("POP, 6 between the two", |l| l.pops(6) && l.between()),
    ("SAVE, context in A", |l| l.saves(0) && l.lies_in(l.a())),
    ("SAVE, context in B, A not empty", |l| l.saves(0) && l.lies_in(l.b()) && l.a().size() > 0),
    ("SAVE, context across both, A below", |l| l.saves(0) && l.across(l.a(), l.b())),
    ("SAVE, context across both, B below", |l| l.saves(0) && l.across(l.b(), l.a())),
    ("SAVE, context across both, met at 2^64", |l| l.saves(0) && l.met_at_the_end()),
    ("SAVE, context across both, rO misaligned", |l| l.saves(0) && l.in_both() && l.misaligned()),
    ("SAVE, 6 though both have a part", |l| l.saves(6) && l.in_both()),
    ("SAVE, 6 between the two", |l| l.saves(6) && l.between()),
    ("UNSAVE, context in A", |l| l.unsaves(0) && l.lies_in(l.a())),
    ("UNSAVE, context in B, A not empty", |l| l.unsaves(0) && l.lies_in(l.b()) && l.a().size() > 0),
    ("UNSAVE, context across both, A below", |l| l.unsaves(0) && l.across(l.a(), l.b())),
    ("UNSAVE, context across both, B below", |l| l.unsaves(0) && l.across(l.b(), l.a())),
    ("UNSAVE, context across both, met at 2^64", |l| l.unsaves(0) && l.met_at_the_end()),
    ("UNSAVE, 16 with a part in both", |l| l.unsaves(16) && l.in_both()),
    ("UNSAVE, 6 though both have a part", |l| l.unsaves(6) && l.in_both()),
    ("load in A", |l| l.loads(0) && l.lies_in(l.a())),
    ("load in B, A not empty", |l| l.loads(0) && l.lies_in(l.b()) && l.a().size() > 0),
    ("store in A", |l| l.stores(0) && l.lies_in(l.a())),
    ("store in B, A not empty", |l| l.stores(0) && l.lies_in(l.b()) && l.a().size() > 0),
    ("store in A, 19", |l| l.stores(19) && l.lies_in(l.a())),
    ("store in B, 19, A not empty", |l| l.stores(19) && l.lies_in(l.b()) && l.a().size() > 0),
    ("load or store between two that are one octabyte apart, 6", |l| (l.loads(6) || l.stores(6)) && l.between()),
    ("load or store, the last octabyte of A before B", |l| {
        l.moves() && l.touches(l.b().base.wrapping_sub(8)) && l.touch(l.a(), l.b())
    }),
    ("load or store, the first octabyte of A after B", |l| l.moves() && l.touches(l.a().base) && l.touch(l.b(), l.a())),
    ("touching, A below", |l| l.done() && l.touch(l.a(), l.b())),
    ("touching, B below", |l| l.done() && l.touch(l.b(), l.a())),
    ("touching at 2^64", |l| {
        l.done() && (l.touch(l.a(), l.b()) && l.b().base == 0 || l.touch(l.b(), l.a()) && l.a().base == 0)
    }),
    ("A across 2^64", |l| l.done() && l.a().wraps()),
    ("B across 2^64, A not empty", |l| l.done() && l.b().wraps() && l.a().size() > 0),
    ("A empty within B", |l| l.done() && l.a().size() == 0 && l.b().holds(l.a().base)),
    ("B empty within A", |l| l.done() && l.b().size() == 0 && l.a().holds(l.b().base)),
    ("both empty", |l| l.done() && l.a().size() == 0 && l.b().size() == 0),
    ("22, the last octabyte of A is the first of B", |l| l.answer.reply == 22 && l.one_shared(l.a(), l.b())),
    ("22, the last octabyte of B is the first of A", |l| l.answer.reply == 22 && l.one_shared(l.b(), l.a())),
    ("22, A within B", |l| l.answer.reply == 22 && l.within(l.a(), l.b())),
    ("22, B within A", |l| l.answer.reply == 22 && l.within(l.b(), l.a())),
    ("22, the same octabytes", |l| l.answer.reply == 22 && (l.a().base, l.a().size()) == (l.b().base, l.b().size())),
    ("22, one of them across 2^64", |l| l.answer.reply == 22 && (l.a().wraps() || l.b().wraps())),
    ("2 by A alone", |l| l.answer.reply == 2 && !l.obeys(l.a()) && l.obeys(l.b())),
    ("2 by B alone", |l| l.answer.reply == 2 && l.obeys(l.a()) && !l.obeys(l.b())),
    ("2, A empty at an odd base", |l| l.answer.reply == 2 && l.a().size() == 0 && l.a().base % 8 != 0),
    ("2, B empty at an odd base", |l| l.answer.reply == 2 && l.b().size() == 0 && l.b().base % 8 != 0),
    ("2, and the two share", |l| l.answer.reply == 2 && l.case.windows.share()),
    ("1, and the two share", |l| l.answer.reply == 1 && l.case.windows.share()),
    ("context of A", |l| l.reads(0) && l.answer.which == 0),
    ("context of B, A not empty", |l| l.reads(0) && l.answer.which == 1 && l.a().size() > 0),
    ("context of A that ends where B begins", |l| l.reads(0) && l.answer.which == 0 && l.ends_with(l.a(), l.b())),
    ("context of B that ends where A begins", |l| l.reads(0) && l.answer.which == 1 && l.ends_with(l.b(), l.a())),
    ("23, A below", |l| l.reads(23) && l.across(l.a(), l.b())),
    ("23, B below", |l| l.reads(23) && l.across(l.b(), l.a())),
    ("23, met at 2^64", |l| l.reads(23) && l.met_at_the_end()),
    ("23, the packed octabyte alone in the other", |l| l.reads(23) && l.packed_alone()),
    ("reader, 16 with a part in both", |l| l.reads(16) && l.in_both()),
    ("reader, 6 though both have a part", |l| l.reads(6) && l.in_both()),
    ("A of 1,048,576 bytes, done", |l| l.done() && l.a().bytes.len() == WINDOW_MAX),
];

/// A case with its answer, and what is asked of its windows.
pub struct Lending<'a> {
    pub case: &'a Case,
    pub answer: &'a Answer,
}

impl Lending<'_> {
    fn a(&self) -> &Window {
        &self.case.windows.a
    }

    fn b(&self) -> &Window {
        &self.case.windows.b
    }

    fn is(&self, opcodes: &[u8], reply: u64) -> bool {
        matches!(self.case.call, Call::Step(i) if opcodes.contains(&i.op)) && self.answer.reply == reply
    }

    fn pushes(&self, reply: u64) -> bool {
        self.is(&[PUSHGO, PUSHGOI, PUSHJ, PUSHJB], reply)
    }

    fn pops(&self, reply: u64) -> bool {
        self.is(&[POP], reply)
    }

    fn saves(&self, reply: u64) -> bool {
        self.is(&[SAVE], reply)
    }

    fn unsaves(&self, reply: u64) -> bool {
        self.is(&[UNSAVE], reply)
    }

    fn loads(&self, reply: u64) -> bool {
        matches!(self.case.call, Call::Step(i) if (LDB..=LDOUI).contains(&i.op)) && self.answer.reply == reply
    }

    fn stores(&self, reply: u64) -> bool {
        matches!(self.case.call, Call::Step(i) if (STB..=STOUI).contains(&i.op)) && self.answer.reply == reply
    }

    fn moves(&self) -> bool {
        self.loads(0) || self.stores(0)
    }

    fn reads(&self, reply: u64) -> bool {
        matches!(self.case.call, Call::Context { .. }) && self.answer.reply == reply
    }

    fn done(&self) -> bool {
        matches!(self.case.call, Call::Step(_)) && self.answer.reply == 0
    }

    fn obeys(&self, window: &Window) -> bool {
        window.size().is_multiple_of(8) && window.bytes.len() <= WINDOW_MAX && window.base.is_multiple_of(8)
    }

    fn touches(&self, address: u64) -> bool {
        self.answer.touched.binary_search(&address).is_ok()
    }

    /// Something is touched, and all of it is in one window.
    fn lies_in(&self, window: &Window) -> bool {
        let touched = &self.answer.touched;
        !touched.is_empty() && touched.iter().all(|address| window.holds(*address))
    }

    /// What is touched goes on from the one to the other.
    fn across(&self, below: &Window, above: &Window) -> bool {
        self.touch(below, above) && self.touches(above.base) && self.touches(above.base.wrapping_sub(8))
    }

    fn met_at_the_end(&self) -> bool {
        self.touches(0) && self.touches(8u64.wrapping_neg()) && self.in_both() && !self.a().wraps() && !self.b().wraps()
    }

    /// Something of each is touched.
    fn in_both(&self) -> bool {
        [self.a(), self.b()].iter().all(|w| self.answer.touched.iter().any(|address| w.holds(*address)))
    }

    /// The two are not empty, and the one begins where the other ends.
    fn touch(&self, below: &Window, above: &Window) -> bool {
        below.size() > 0 && above.size() > 0 && below.end() == above.base
    }

    /// An octabyte is touched that lies between the two, with no more than three to each side before one of them.
    fn between(&self) -> bool {
        let near = |below: &Window, above: &Window| {
            let gap = above.base.wrapping_sub(below.end());
            let inside = |address: &u64| address.wrapping_sub(below.end()) < gap;
            below.size() > 0 && above.size() > 0 && gap <= 24 && self.answer.touched.iter().any(inside)
        };
        near(self.a(), self.b()) || near(self.b(), self.a())
    }

    fn misaligned(&self) -> bool {
        self.case.state.special[RO] % 8 != 0
    }

    /// Where POP finds the hole.
    fn below_ro(&self) -> u64 {
        self.case.state.special[RO].wrapping_sub(8)
    }

    /// The last octabyte of the one is the first of the other, and no other is in both.
    fn one_shared(&self, below: &Window, above: &Window) -> bool {
        below.end() == above.base.wrapping_add(8) && below.size() > 8 && above.size() > 8
    }

    /// All octabytes of the one lie in the other, which has more.
    fn within(&self, inner: &Window, outer: &Window) -> bool {
        outer.holds(inner.base) && outer.holds(inner.end().wrapping_sub(8)) && inner.size() < outer.size()
    }

    /// The part found reaches the end of its window, and the other window goes on from there.
    fn ends_with(&self, window: &Window, next: &Window) -> bool {
        self.touch(window, next) && self.answer.part.end as u64 == window.size()
    }

    /// The packed octabyte is the first of its window, and the context is across.
    fn packed_alone(&self) -> bool {
        let Call::Context { address } = self.case.call else { return false };
        [self.a(), self.b()].iter().any(|w| w.base == address & !7) && self.in_both()
    }
}

/// Count the situations that a case is in.
pub fn count(case: &Case, answer: &Answer, counts: &mut [u64; LENDINGS.len()]) {
    if !matches!(case.call, Call::Step(_) | Call::Context { .. }) || case.windows == Windows::default() {
        return;
    }
    let lending = Lending { case, answer };
    for (count, (_, test)) in counts.iter_mut().zip(&LENDINGS) {
        *count += test(&lending) as u64;
    }
}
