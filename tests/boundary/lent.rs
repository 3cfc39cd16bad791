//! Memory to lend to the library: a slice that lies against a page that may not be touched, so that a byte read or written past
//! its end (or before its start) ends the program.

use bogtrumpet::raw::Node;
use std::ffi::c_void;

const PAGE: usize = 4096;
const NO_ACCESS: i32 = 0;
const READ_WRITE: i32 = 3;
/// Private and anonymous, as Linux numbers them.
const FLAGS: i32 = 0x22;

extern "C" {
    fn mmap(at: *mut c_void, length: usize, protection: i32, flags: i32, file: i32, offset: i64) -> *mut c_void;
    fn mprotect(at: *mut c_void, length: usize, protection: i32) -> i32;
}

pub struct Lent {
    start: *mut u8,
    size: usize,
}

impl Lent {
    /// Memory for slices up to `size`, kept to the program's end.
    pub fn new(size: usize) -> Lent {
        let size = size.next_multiple_of(PAGE);
        // SAFETY: a new mapping, of which all but the first and the last page is opened.
        unsafe {
            let base = mmap(std::ptr::null_mut(), size + 2 * PAGE, NO_ACCESS, FLAGS, -1, 0);
            assert!(base as isize != -1, "no memory to lend");
            let start = base.cast::<u8>().add(PAGE);
            assert!(mprotect(start.cast(), size, READ_WRITE) == 0, "no memory to lend");
            Lent { start, size }
        }
    }

    /// A slice against the page behind it, or against the page before it.
    pub fn slice(&mut self, length: usize, at_end: bool) -> &mut [u8] {
        assert!(length <= self.size);
        let skipped = if at_end { self.size - length } else { 0 };
        // SAFETY: inside the opened pages, and borrowed as `self` is.
        unsafe { std::slice::from_raw_parts_mut(self.start.add(skipped), length) }
    }

    /// A copy of the bytes there.
    pub fn copy(&mut self, bytes: &[u8], at_end: bool) -> &mut [u8] {
        let slice = self.slice(bytes.len(), at_end);
        slice.copy_from_slice(bytes);
        slice
    }

    /// A copy of the node there.
    pub fn node(&mut self, node: &Node, at_end: bool) -> &mut Node {
        let place = self.slice(size_of::<Node>(), at_end).as_mut_ptr().cast::<Node>();
        // SAFETY: a page and the size of a node are multiples of its alignment, and the slice has its size.
        unsafe {
            place.write(*node);
            &mut *place
        }
    }
}
