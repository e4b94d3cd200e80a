//! Pages that may be touched between two that may not, full of canaries; and memory that is kept once it is freed.

use std::ffi::{c_int, c_void};
use std::{ptr, slice};

unsafe extern "C" {
    fn mmap(at: *mut c_void, len: usize, protection: c_int, flags: c_int, file: c_int, offset: i64) -> *mut c_void;
    fn mprotect(at: *mut c_void, len: usize, protection: c_int) -> c_int;
    fn munmap(at: *mut c_void, len: usize) -> c_int;
    fn mallopt(which: c_int, value: c_int) -> c_int;
}

const PROT_NONE: c_int = 0;
const PROT_READ_WRITE: c_int = 3;
const MAP_PRIVATE_ANONYMOUS: c_int = 0x22;

pub const PAGE: usize = 4096;
const CANARY: u8 = 0xC5;

const M_TRIM_THRESHOLD: c_int = -1;
const M_MMAP_THRESHOLD: c_int = -3;

/// Freed memory is kept for the next case: windows are long, and giving their pages back each time takes longer than the cases do.
pub fn keep_freed() {
    // SAFETY: settings of the allocator, made before the first thread starts.
    unsafe {
        mallopt(M_MMAP_THRESHOLD, 1 << 25);
        mallopt(M_TRIM_THRESHOLD, 1 << 29);
    }
}

/// Pages that may be touched between two that may not. All bytes are canaries while nothing stands here.
pub struct Area {
    start: *mut u8,
    len: usize,
}

impl Area {
    pub fn new(len: usize) -> Self {
        let len = len.next_multiple_of(PAGE);
        // SAFETY: a new mapping, of which the part that is opened lies between its first and its last page.
        unsafe {
            let all = mmap(ptr::null_mut(), len + 2 * PAGE, PROT_NONE, MAP_PRIVATE_ANONYMOUS, -1, 0);
            let start = all.cast::<u8>().wrapping_add(PAGE);
            let opened = mprotect(start.cast(), len, PROT_READ_WRITE);
            assert_eq!(opened, 0, "no memory between guard pages, or pages are not of {PAGE} bytes");
            start.write_bytes(CANARY, len);
            Self { start, len }
        }
    }

    pub fn len(&self) -> usize {
        self.len
    }

    /// Where `len` bytes stand, flush against an end.
    pub fn place(&self, len: usize, at_end: bool) -> *mut u8 {
        self.start.wrapping_add(if at_end { self.len - len } else { 0 })
    }

    /// Put the canaries back over `len` bytes; whether all others are as they were.
    pub fn clear(&mut self, at: *mut u8, len: usize) -> bool {
        // SAFETY: `at` and `len` lie in the area, and no reference into it is left.
        let bytes = unsafe {
            at.write_bytes(CANARY, len);
            slice::from_raw_parts(self.start, self.len)
        };
        let whole = bytes.as_chunks::<PAGE>().0.iter().all(|page| page == &[CANARY; PAGE]);
        if !whole {
            unsafe { self.start.write_bytes(CANARY, self.len) };
        }
        whole
    }
}

impl Drop for Area {
    fn drop(&mut self) {
        // SAFETY: the mapping made by `new`, to which no reference is left.
        unsafe { munmap(self.start.wrapping_sub(PAGE).cast(), self.len + 2 * PAGE) };
    }
}
