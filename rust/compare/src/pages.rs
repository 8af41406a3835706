//! Buffers at the edge of a page that can't be touched.

use crate::call::{Call, Value};
use crate::library::Lent;
use std::ffi::c_void;
use std::ops::{Deref, DerefMut};

/// Pages of x86-64.
const PAGE: usize = 4096;

const PROT_NONE: i32 = 0;
const PROT_READ: i32 = 1;
const PROT_READ_WRITE: i32 = 3;
const MAP_PRIVATE_ANONYMOUS: i32 = 0x22;

extern "C" {
    fn mmap(
        at: *mut c_void,
        len: usize,
        prot: i32,
        flags: i32,
        fd: i32,
        offset: i64,
    ) -> *mut c_void;
    fn mprotect(at: *mut c_void, len: usize, prot: i32) -> i32;
    fn munmap(at: *mut c_void, len: usize) -> i32;
}

/// Where in its pages a buffer lies.
#[derive(Clone, Copy, Debug, PartialEq, Eq)]
pub enum Edge {
    /// It begins where the memory begins that may be touched.
    First,
    /// It ends where that memory ends.
    Last,
}

/// The arguments of `call`, each buffer at this edge of pages of its own.
pub fn lent(call: &Call, edge: Edge) -> Lent<Input, Output> {
    let read = |bytes: &[u8]| Input::new(bytes, edge);
    Lent::new(call, read, |bytes| Output::new(bytes, edge))
}

/// A buffer that may be written.
pub struct Output {
    pages: Pages,
}

impl Output {
    /// A copy of `bytes` at an edge of its pages.
    pub fn new(bytes: &[u8], edge: Edge) -> Self {
        let pages = Pages::new(bytes.len(), edge);
        pages.protect(PROT_READ_WRITE);
        let mut output = Self { pages };
        output.copy_from_slice(bytes);
        output
    }
}

impl Deref for Output {
    type Target = [u8];

    fn deref(&self) -> &[u8] {
        self.pages.bytes()
    }
}

impl DerefMut for Output {
    fn deref_mut(&mut self) -> &mut [u8] {
        // SAFETY: `at` is valid for `len` bytes, which this type keeps readable and writable, and
        // `self` is borrowed for as long as the slice.
        unsafe { std::slice::from_raw_parts_mut(self.pages.at, self.pages.len) }
    }
}

/// A buffer that may be read only: a byte written to it ends the program by a signal.
pub struct Input {
    pages: Pages,
}

impl Input {
    /// A copy of `bytes` at an edge of its pages.
    pub fn new(bytes: &[u8], edge: Edge) -> Self {
        let Output { pages } = Output::new(bytes, edge);
        pages.protect(PROT_READ);
        Self { pages }
    }
}

impl Deref for Input {
    type Target = [u8];

    fn deref(&self) -> &[u8] {
        self.pages.bytes()
    }
}

impl From<Input> for Value {
    fn from(input: Input) -> Self {
        input[..].into()
    }
}

/// Pages with one that can't be touched on either side, and where in them a buffer lies.
struct Pages {
    base: *mut u8,
    room: usize,
    at: *mut u8,
    len: usize,
}

impl Pages {
    /// Pages for `len` bytes, not to be touched yet.
    fn new(len: usize, edge: Edge) -> Self {
        // An empty buffer has a page too, since its pointer has to lie somewhere.
        let room = len.max(1).next_multiple_of(PAGE);
        let (flags, mapped) = (MAP_PRIVATE_ANONYMOUS, room + 2 * PAGE);
        // SAFETY: a fresh mapping overlaps nothing.
        let base = unsafe { mmap(std::ptr::null_mut(), mapped, PROT_NONE, flags, -1, 0) };
        assert_ne!(base as isize, -1, "mmap failed");
        let base = base.cast::<u8>();
        let offset = match edge {
            Edge::First => PAGE,
            Edge::Last => PAGE + room - len,
        };
        // SAFETY: the offset is within the mapping.
        let at = unsafe { base.add(offset) };
        Self {
            base,
            room,
            at,
            len,
        }
    }

    /// Sets what may be done with the pages between the two that can't be touched.
    fn protect(&self, prot: i32) {
        // SAFETY: these pages are mapped, and no reference into them is held.
        let result = unsafe { mprotect(self.base.add(PAGE).cast(), self.room, prot) };
        assert_eq!(result, 0, "mprotect failed");
    }

    /// The buffer, once its pages may be read.
    fn bytes(&self) -> &[u8] {
        // SAFETY: `at` is valid for `len` bytes, which `Input` and `Output` keep readable.
        unsafe { std::slice::from_raw_parts(self.at, self.len) }
    }
}

impl Drop for Pages {
    fn drop(&mut self) {
        // SAFETY: the mapping is this value's own, and no reference into it is left.
        unsafe { munmap(self.base.cast(), self.room + 2 * PAGE) };
    }
}
