//! The guards see what they are for: a byte written beside a buffer, and pages that can't be touched.

use std::ffi::{c_int, c_void};
use std::fs::File;
use std::os::fd::AsRawFd;

use oracle::case::{Instruction, Kind};
use oracle::guards::{Guard, Guarded, WROTE_OUTSIDE};
use oracle::lent::{Bases, Lent, Shown};
use oracle::model::points::STORE_LEN;
use oracle::opcodes::STB;
use oracle::state::{IMAGE_LEN, State, WINDOW_MAX};
use oracle::subject::{Aim, Found, Parts, Subject, Told};

unsafe extern "C" {
    fn write(file: c_int, bytes: *const c_void, count: usize) -> isize;
}

/// Whether a byte may be read: the system refuses to copy one that may not.
fn readable(address: *const u8) -> bool {
    let name = std::env::temp_dir().join(format!("guards-{}-{:?}", std::process::id(), std::thread::current().id()));
    let file = File::create(&name).expect("a file");
    // SAFETY: the system checks the address.
    let written = unsafe { write(file.as_raw_fd(), address.cast(), 1) };
    std::fs::remove_file(name).expect("the file that was made");
    written == 1
}

/// Writes one byte after the image or window, or before it; or tells whether the bytes there may be read.
#[derive(Clone, Copy)]
enum Probe {
    WriteAfter,
    WriteBefore,
    ReadAround,
}

impl Probe {
    fn around(self, buffer: &mut [u8]) -> u64 {
        let (before, after) = (buffer.as_mut_ptr().wrapping_sub(1), buffer.as_mut_ptr().wrapping_add(buffer.len()));
        // SAFETY: none; the guarded places are such that these bytes may be written or are not.
        unsafe {
            match self {
                Probe::WriteAfter if readable(after) => *after = 1,
                Probe::WriteBefore if readable(before) => *before = 1,
                _ => {}
            }
        }
        2 * readable(before) as u64 + readable(after) as u64
    }
}

impl Subject for Probe {
    fn name(&self) -> &'static str {
        "probe"
    }
    fn initialize(&self, image: &mut [u8]) -> u64 {
        self.around(image)
    }
    fn initialize_at(&self, image: &mut [u8], _: u64) -> u64 {
        self.around(image)
    }
    /// X says around which window.
    fn step(&self, i: Instruction, _: &mut [u8], lent: Lent) -> u64 {
        self.around(if i.x == 0 { lent.a } else { lent.b })
    }
    fn exceptions(&self, _: u8, _: Instruction, _: u64, _: u64, _: &mut [u8]) -> u64 {
        0
    }
    /// Around the eight bytes that say which.
    fn context(&self, _: u64, _: Shown, found: Found) -> u64 {
        self.around(unsafe { std::slice::from_raw_parts_mut(std::ptr::from_mut(found.which).cast(), 8) })
    }
    fn step_lent(&self, i: Instruction, _: &mut State, lent: Lent) -> u64 {
        self.around(if i.x == 0 { lent.a } else { lent.b })
    }
    fn step_parts(&self, i: Instruction, _: Parts, lent: Lent) -> u64 {
        self.around(if i.x == 0 { lent.a } else { lent.b })
    }
    /// A grant of 0 or 1 says around which window; any other, around the eight bytes of the count.
    fn run(&self, grant: u64, _: &mut [u8], lent: Lent, done: &mut u64) -> u64 {
        match grant {
            0 => self.around(lent.a),
            1 => self.around(lent.b),
            // SAFETY: the eight bytes of the count.
            _ => self.around(unsafe { std::slice::from_raw_parts_mut(std::ptr::from_mut(done).cast(), 8) }),
        }
    }
    fn run_parts(&self, grant: u64, _: Parts, lent: Lent, done: &mut u64) -> u64 {
        self.run(grant, &mut [], lent, done)
    }
    fn exceptions_parts(&self, _: u8, _: Instruction, _: u64, _: u64, _: Parts) -> u64 {
        0
    }
    /// q says around what: images, windows A and B, the eight counts, the eight refusals.
    fn tasks(&self, q: u64, _: u64, images: &mut [u8], _: &[u64], lent: Lent, told: Told) -> u64 {
        // SAFETY: eight numbers of eight bytes each.
        let bytes = |numbers: &mut [u64; 8]| unsafe { std::slice::from_raw_parts_mut(numbers.as_mut_ptr().cast(), 64) };
        self.around([images, lent.a, lent.b, bytes(told.counts), bytes(told.refusals)][q as usize])
    }
    /// Around the image where there are no pairs, else around the eight bytes of the place.
    fn put_set(&self, image: &mut [u8], pairs: &[u8], place: &mut u64) -> u64 {
        // SAFETY: the eight bytes of the place.
        let eight = unsafe { std::slice::from_raw_parts_mut(std::ptr::from_mut(place).cast(), 8) };
        self.around(if pairs.is_empty() { image } else { eight })
    }
    fn put_set_parts(&self, _: Parts, _: &[u64], place: &mut u64) -> u64 {
        self.put_set(&mut [], &[0], place)
    }
    fn decode(&self, _: &[u8], _: &mut State) -> u64 {
        0
    }
    fn encode(&self, _: &State, _: &mut [u8]) -> u64 {
        0
    }
    fn field(&self, _: Kind, _: u64, _: u64, aim: Aim) -> u64 {
        // SAFETY: the four bytes of the field.
        self.around(unsafe { std::slice::from_raw_parts_mut(std::ptr::from_mut(aim.field).cast(), 4) })
    }
    fn take(&self, _: u64, _: &[u8], _: Shown, store: &mut [u8]) -> u64 {
        self.around(store)
    }
    /// The name says around what: window A, window B, the image.
    fn go_back(&self, name: u64, image: &mut [u8], lent: Lent, _: &[u8]) -> u64 {
        self.around([lent.a, lent.b, image][name as usize])
    }
}

/// Two calls in turn: flush against the page after the buffer, then against the one before it. The buffer is an image;
/// window A or B of a step by each of its functions, where loads and stores of its last bytes and its first go, the other one
/// as long as a window may be; the same of a run, and its count; the reader's word which window it is; the four bytes of a field;
/// a store, and what is given back; the image of a set, and its place; what a call of eight tasks is lent.
fn twice(probe: Probe) -> [[u64; 2]; 28] {
    let guarded = Guarded::new(Box::new(probe), Guard::Pages);
    let (mut image, mut state) = (vec![0; IMAGE_LEN], State::zero());
    let at = Bases { a: 0, b: 1 << 32 };
    let mut step = |x: u8, call: u8| {
        let i = Instruction { op: STB, x, y: 2, z: 3 };
        let (mut a, mut b) =
            if x == 0 { (vec![0; 64], vec![0; WINDOW_MAX]) } else { (vec![0; WINDOW_MAX], vec![0; 64]) };
        let lent = Lent { at, a: &mut a, b: &mut b };
        match call {
            0 => guarded.step(i, &mut image, lent),
            1 => guarded.step_lent(i, &mut state, lent),
            2 => guarded.step_parts(i, (&mut state).into(), lent),
            3 => guarded.run(x as u64, &mut image, lent, &mut 0),
            _ => guarded.run_parts(x as u64, (&mut state).into(), lent, &mut 0),
        }
    };
    let mut steps = Vec::new();
    for (x, call) in [(0, 0), (1, 0), (0, 1), (1, 1), (0, 2), (1, 2), (0, 3), (1, 3), (2, 3), (0, 4), (1, 4), (2, 4)] {
        steps.push([step(x, call), step(x, call)]);
    }
    let shown = || Shown { at, a: &[0; 16], b: &[0; 24] };
    let context = || guarded.context(0, shown(), Found { which: &mut 0, start: &mut 0, length: &mut 0 });
    let field = || guarded.field(Kind::Jump, 0, 4, Aim { backward: &mut 0, field: &mut 0 });
    steps.push([guarded.initialize(&mut image), guarded.initialize(&mut image)]);
    steps.push([guarded.initialize_at(&mut image, 8), guarded.initialize_at(&mut image, 8)]);
    steps.push([context(), context()]);
    steps.push([field(), field()]);
    let mut store = vec![0; STORE_LEN];
    let mut take = || guarded.take(0, &[0; IMAGE_LEN], shown(), &mut store);
    steps.push([take(), take()]);
    for name in 0..3 {
        let mut back = || {
            let (mut a, mut b, store) = (vec![0; WINDOW_MAX], vec![0; WINDOW_MAX], vec![0; STORE_LEN]);
            guarded.go_back(name, &mut image, Lent { at, a: &mut a, b: &mut b }, &store)
        };
        steps.push([back(), back()]);
    }
    let mut set = |pairs: &[u8]| guarded.put_set(&mut image, pairs, &mut 0);
    steps.push([set(&[]), set(&[])]);
    steps.push([set(&[0; 16]), set(&[0; 16])]);
    let mut set = || guarded.put_set_parts((&mut state).into(), &[0; 8], &mut 0);
    steps.push([set(), set()]);
    for q in 0..5 {
        let call = || {
            let (mut a, mut b, mut images) = (vec![0; WINDOW_MAX], vec![0; WINDOW_MAX], vec![0; 8 * IMAGE_LEN]);
            let told = Told { counts: &mut [0; 8], refusals: &mut [0; 8] };
            guarded.tasks(q, 0, &mut images, &[0; 16], Lent { at, a: &mut a, b: &mut b }, told)
        };
        steps.push([call(), call()]);
    }
    steps.try_into().expect("twenty-eight")
}

#[test]
fn pages_beside_a_buffer_cannot_be_touched() {
    assert_eq!(twice(Probe::ReadAround), [[2, 1]; 28]);
}

#[test]
fn canaries_see_a_byte_written() {
    assert_eq!(twice(Probe::WriteAfter), [[2, WROTE_OUTSIDE]; 28]);
    assert_eq!(twice(Probe::WriteBefore), [[WROTE_OUTSIDE, 1]; 28]);
}
