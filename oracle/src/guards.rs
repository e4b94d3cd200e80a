//! A subject whose every buffer stands in a place of its own, so that a byte touched outside it is seen: between
//! pages that can't be touched, flush against the one after it or, in turn, the one before it, with a canary on the
//! other side; or in an allocation of exactly its size, for valgrind.

use std::alloc::{self, Layout};
use std::cell::{Cell, RefCell};
use std::ffi::c_int;
use std::{process, ptr, slice};

use crate::areas::{Area, PAGE};
use crate::case::{Case, Instruction, Kind};
use crate::lent::{Lent, Shown};
use crate::model::points::STORE_LEN;
use crate::model::tasks::TASKS_MAX;
use crate::state::{IMAGE_LEN, State, WINDOW_MAX};
use crate::subject::{Aim, Found, Parts, Subject, Told};

unsafe extern "C" {
    fn signal(number: c_int, handler: extern "C" fn(c_int)) -> usize;
}

const SIGSEGV: c_int = 11;

/// How buffers are guarded.
#[derive(Clone, Copy, PartialEq, Eq, Debug)]
pub enum Guard {
    Pages,
    Heap,
}

/// What has no padding and may hold any bytes.
trait Plain {}
impl Plain for State {}
impl Plain for [u64; 256] {}
impl Plain for [u64; 32] {}
impl Plain for [u64; 8] {}
impl Plain for u64 {}
impl Plain for usize {}
impl Plain for u32 {}
impl Plain for u8 {}

fn bytes_of<T: Plain>(value: &mut T) -> &mut [u8] {
    // SAFETY: a plain value without padding, as bytes.
    unsafe { slice::from_raw_parts_mut(ptr::from_mut(value).cast(), size_of::<T>()) }
}

fn of_bytes<T: Plain>(bytes: &mut [u8]) -> &mut T {
    assert!(bytes.len() == size_of::<T>() && bytes.as_ptr().cast::<T>().is_aligned());
    // SAFETY: size and alignment are right, and any bytes are such a value.
    unsafe { &mut *bytes.as_mut_ptr().cast() }
}

fn octabytes_of(values: &mut [u64]) -> &mut [u8] {
    // SAFETY: numbers without padding, as bytes.
    unsafe { slice::from_raw_parts_mut(values.as_mut_ptr().cast(), size_of_val(values)) }
}

fn of_octabytes(bytes: &mut [u8]) -> &mut [u64] {
    assert!(bytes.len().is_multiple_of(8) && bytes.as_ptr().cast::<u64>().is_aligned());
    // SAFETY: length and alignment are right, and any bytes are such numbers.
    unsafe { slice::from_raw_parts_mut(bytes.as_mut_ptr().cast(), bytes.len() / 8) }
}

pub struct Guarded {
    subject: Box<dyn Subject>,
    guard: Guard,
    /// Short areas first.
    areas: RefCell<Vec<Area>>,
    at_end: Cell<bool>,
}

impl Guarded {
    pub fn new(subject: Box<dyn Subject>, guard: Guard) -> Self {
        let areas = match guard {
            Guard::Pages => [2 * IMAGE_LEN; 5]
                .into_iter()
                .chain([TASKS_MAX * IMAGE_LEN + PAGE])
                .chain([WINDOW_MAX + 2 * PAGE; 2])
                .chain([STORE_LEN + PAGE])
                .map(Area::new)
                .collect(),
            Guard::Heap => Vec::new(),
        };
        Self { subject, guard, areas: RefCell::new(areas), at_end: Cell::new(false) }
    }

    /// Copy the buffers to guarded places, call, and copy them back.
    fn call<const N: usize>(&self, buffers: [&mut [u8]; N], call: impl FnOnce([&mut [u8]; N]) -> u64) -> u64 {
        match self.guard {
            Guard::Pages => self.between_pages(buffers, call),
            Guard::Heap => on_the_heap(buffers, call),
        }
    }

    fn between_pages<const N: usize>(
        &self,
        mut buffers: [&mut [u8]; N],
        call: impl FnOnce([&mut [u8]; N]) -> u64,
    ) -> u64 {
        let mut areas = self.areas.borrow_mut();
        let at_end = !self.at_end.get();
        self.at_end.set(at_end);
        let mut used = [0; N];
        for k in 0..N {
            let fits = |a: &usize| !used[..k].contains(a) && buffers[k].len() <= areas[*a].len();
            used[k] = (0..areas.len()).find(fits).expect("an area that is free and long enough");
        }
        let places: [*mut u8; N] = std::array::from_fn(|k| areas[used[k]].place(buffers[k].len(), at_end));
        let reply = lend(&mut buffers, places, call);
        let cleared: [bool; N] = std::array::from_fn(|k| areas[used[k]].clear(places[k], buffers[k].len()));
        if cleared == [true; N] { reply } else { WROTE_OUTSIDE }
    }
}

/// The reply of a call that wrote a byte outside its buffers: none of 01's.
pub const WROTE_OUTSIDE: u64 = u64::MAX;

/// Each buffer in an allocation of exactly its size.
fn on_the_heap<const N: usize>(mut buffers: [&mut [u8]; N], call: impl FnOnce([&mut [u8]; N]) -> u64) -> u64 {
    let layouts = buffers.each_ref().map(|b| Layout::from_size_align(b.len().max(1), 8).unwrap());
    // SAFETY: no layout is of size 0, and what is freed was allocated with the same layout.
    let places = layouts.map(|layout| unsafe { alloc::alloc(layout) });
    let reply = lend(&mut buffers, places, call);
    places.iter().zip(layouts).for_each(|(at, layout)| unsafe { alloc::dealloc(*at, layout) });
    reply
}

/// Call with the buffers' bytes at `places`, and copy them back.
fn lend<const N: usize>(
    buffers: &mut [&mut [u8]; N],
    places: [*mut u8; N],
    call: impl FnOnce([&mut [u8]; N]) -> u64,
) -> u64 {
    // SAFETY: the places are apart, each has room for its buffer, and nothing else refers to them.
    let lent = |k: usize| unsafe { slice::from_raw_parts_mut(places[k], buffers[k].len()) };
    (0..N).for_each(|k| unsafe { ptr::copy_nonoverlapping(buffers[k].as_ptr(), places[k], buffers[k].len()) });
    let reply = call(std::array::from_fn(lent));
    (0..N).for_each(|k| unsafe { ptr::copy_nonoverlapping(places[k], buffers[k].as_mut_ptr(), buffers[k].len()) });
    reply
}

impl Subject for Guarded {
    fn name(&self) -> &'static str {
        self.subject.name()
    }

    fn initialize(&self, image: &mut [u8]) -> u64 {
        self.call([image], |[image]| self.subject.initialize(image))
    }

    fn initialize_at(&self, image: &mut [u8], stack_start: u64) -> u64 {
        self.call([image], |[image]| self.subject.initialize_at(image, stack_start))
    }

    fn step(&self, i: Instruction, image: &mut [u8], lent: Lent) -> u64 {
        let Lent { at, a, b } = lent;
        self.call([image, a, b], |[image, a, b]| self.subject.step(i, image, Lent { at, a, b }))
    }

    fn exceptions(&self, flags: u8, of: Instruction, y_val: u64, z_val: u64, image: &mut [u8]) -> u64 {
        self.call([image], |[image]| self.subject.exceptions(flags, of, y_val, z_val, image))
    }

    fn context(&self, address: u64, shown: Shown, found: Found) -> u64 {
        let (mut in_a, mut in_b) = (shown.a.to_vec(), shown.b.to_vec());
        let buffers = [bytes_of(found.which), bytes_of(found.start), bytes_of(found.length), &mut in_a, &mut in_b];
        let reply = self.call(buffers, |[which, start, length, a, b]| {
            let found = Found { which: of_bytes(which), start: of_bytes(start), length: of_bytes(length) };
            self.subject.context(address, Shown { at: shown.at, a, b }, found)
        });
        if in_a == shown.a && in_b == shown.b { reply } else { WROTE_OUTSIDE }
    }

    fn step_lent(&self, i: Instruction, state: &mut State, lent: Lent) -> u64 {
        let Lent { at, a, b } = lent;
        let buffers = [bytes_of(state), a, b];
        self.call(buffers, |[state, a, b]| self.subject.step_lent(i, of_bytes(state), Lent { at, a, b }))
    }

    fn step_parts(&self, i: Instruction, parts: Parts, lent: Lent) -> u64 {
        let (Parts { general, special, pc, halt, marks, mask }, Lent { at, a, b }) = (parts, lent);
        let buffers = [bytes_of(general), bytes_of(special), bytes_of(pc), bytes_of(halt), a, b];
        self.call(buffers, |[general, special, pc, halt, a, b]| {
            let (general, special) = (of_bytes(general), of_bytes(special));
            let parts = Parts { general, special, pc: of_bytes(pc), halt: of_bytes(halt), marks, mask };
            self.subject.step_parts(i, parts, Lent { at, a, b })
        })
    }

    fn run(&self, grant: u64, image: &mut [u8], lent: Lent, done: &mut u64) -> u64 {
        let Lent { at, a, b } = lent;
        let buffers = [image, bytes_of(done), a, b];
        self.call(buffers, |[image, done, a, b]| self.subject.run(grant, image, Lent { at, a, b }, of_bytes(done)))
    }

    fn run_parts(&self, grant: u64, parts: Parts, lent: Lent, done: &mut u64) -> u64 {
        let (Parts { general, special, pc, halt, marks, mask }, Lent { at, a, b }) = (parts, lent);
        let buffers = [bytes_of(general), bytes_of(special), bytes_of(pc), bytes_of(halt), bytes_of(done), a, b];
        self.call(buffers, |[general, special, pc, halt, done, a, b]| {
            let (general, special) = (of_bytes(general), of_bytes(special));
            let parts = Parts { general, special, pc: of_bytes(pc), halt: of_bytes(halt), marks, mask };
            self.subject.run_parts(grant, parts, Lent { at, a, b }, of_bytes(done))
        })
    }

    fn exceptions_parts(&self, flags: u8, of: Instruction, y_val: u64, z_val: u64, parts: Parts) -> u64 {
        let Parts { general, special, pc, halt, marks, mask } = parts;
        let buffers = [bytes_of(general), bytes_of(special), bytes_of(pc), bytes_of(halt)];
        self.call(buffers, |[general, special, pc, halt]| {
            let (general, special) = (of_bytes(general), of_bytes(special));
            let parts = Parts { general, special, pc: of_bytes(pc), halt: of_bytes(halt), marks, mask };
            self.subject.exceptions_parts(flags, of, y_val, z_val, parts)
        })
    }

    fn tasks(&self, q: u64, grant: u64, images: &mut [u8], parts: &[u64], lent: Lent, told: Told) -> u64 {
        let (Lent { at, a, b }, mut copy) = (lent, parts.to_vec());
        let buffers = [images, octabytes_of(&mut copy), a, b, bytes_of(told.counts), bytes_of(told.refusals)];
        let reply = self.call(buffers, |[images, parts, a, b, counts, refusals]| {
            let told = Told { counts: of_bytes(counts), refusals: of_bytes(refusals) };
            self.subject.tasks(q, grant, images, of_octabytes(parts), Lent { at, a, b }, told)
        });
        if copy == parts { reply } else { WROTE_OUTSIDE }
    }

    fn put_set(&self, image: &mut [u8], pairs: &[u8], place: &mut u64) -> u64 {
        let mut copy = pairs.to_vec();
        let reply = self.call([image, &mut copy, bytes_of(place)], |[image, pairs, place]| {
            self.subject.put_set(image, pairs, of_bytes(place))
        });
        if copy == pairs { reply } else { WROTE_OUTSIDE }
    }

    fn put_set_parts(&self, parts: Parts, pairs: &[u64], place: &mut u64) -> u64 {
        let (Parts { general, special, pc, halt, marks, mask }, mut copy) = (parts, pairs.to_vec());
        let buffers = [
            bytes_of(general),
            bytes_of(special),
            bytes_of(pc),
            bytes_of(halt),
            octabytes_of(&mut copy),
            bytes_of(place),
        ];
        let reply = self.call(buffers, |[general, special, pc, halt, pairs, place]| {
            let (general, special) = (of_bytes(general), of_bytes(special));
            let parts = Parts { general, special, pc: of_bytes(pc), halt: of_bytes(halt), marks, mask };
            self.subject.put_set_parts(parts, of_octabytes(pairs), of_bytes(place))
        });
        if copy == pairs { reply } else { WROTE_OUTSIDE }
    }

    fn decode(&self, image: &[u8], state: &mut State) -> u64 {
        let mut copy = image.to_vec();
        let reply =
            self.call([&mut copy, bytes_of(state)], |[image, state]| self.subject.decode(image, of_bytes(state)));
        if copy == image { reply } else { WROTE_OUTSIDE }
    }

    fn encode(&self, state: &State, image: &mut [u8]) -> u64 {
        let mut copy = state.clone();
        let reply =
            self.call([bytes_of(&mut copy), image], |[state, image]| self.subject.encode(of_bytes(state), image));
        if copy == *state { reply } else { WROTE_OUTSIDE }
    }

    fn field(&self, kind: Kind, from: u64, to: u64, aim: Aim) -> u64 {
        self.call([bytes_of(aim.backward), bytes_of(aim.field)], |[backward, field]| {
            self.subject.field(kind, from, to, Aim { backward: of_bytes(backward), field: of_bytes(field) })
        })
    }

    fn take(&self, name: u64, image: &[u8], shown: Shown, store: &mut [u8]) -> u64 {
        let mut read = [image.to_vec(), shown.a.to_vec(), shown.b.to_vec()];
        let [given, in_a, in_b] = &mut read;
        let reply = self.call([given, in_a, in_b, store], |[image, a, b, store]| {
            self.subject.take(name, image, Shown { at: shown.at, a, b }, store)
        });
        if read == [image, shown.a, shown.b] { reply } else { WROTE_OUTSIDE }
    }

    fn go_back(&self, name: u64, image: &mut [u8], lent: Lent, store: &[u8]) -> u64 {
        let (Lent { at, a, b }, mut kept) = (lent, store.to_vec());
        let reply = self.call([image, a, b, &mut kept], |[image, a, b, store]| {
            self.subject.go_back(name, image, Lent { at, a, b }, store)
        });
        if kept == store { reply } else { WROTE_OUTSIDE }
    }
}

thread_local! {
    static CASE: Cell<*const Case> = const { Cell::new(ptr::null()) };
}

/// Where a page is touched that may not be, print the case that this thread is at and end with status 1.
pub fn report_faults() {
    // SAFETY: the handler ends the process.
    unsafe { signal(SIGSEGV, at_fault) };
}

/// Name the case that comes next.
pub fn at_case(case: &Case) {
    CASE.set(case);
}

extern "C" fn at_fault(_signal: c_int) {
    // SAFETY: the case named last is the one that is being compared, and it is compared by reference.
    match unsafe { CASE.get().as_ref() } {
        Some(case) => println!("DIFFERS: a byte outside is touched\n{case}"),
        None => println!("DIFFERS: a byte outside is touched"),
    }
    process::exit(1);
}
