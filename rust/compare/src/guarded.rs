//! Memory right beside a page that may not be touched: a read or write one byte too far stops the run.

use std::ffi::c_void;
use std::ptr;

extern "C" {
    fn mmap(place: *mut c_void, length: usize, may: i32, kind: i32, file: i32, offset: i64) -> *mut c_void;
    fn mprotect(place: *mut c_void, length: usize, may: i32) -> i32;
    fn munmap(place: *mut c_void, length: usize) -> i32;
}

const NOTHING: i32 = 0;
const READ_AND_WRITE: i32 = 1 | 2;
const PRIVATE_AND_EMPTY: i32 = 0x02 | 0x20;
/// At least the size of a page on the machines in use; larger is no harm.
const PAGE: usize = 65_536;

/// Room for `most` bytes between two forbidden pages.
pub struct Guarded {
    begin: *mut u8,
    room: usize,
}

impl Guarded {
    pub fn new(most: usize) -> Guarded {
        let room = most.div_ceil(PAGE) * PAGE;
        // SAFETY: a new region of our own; its first and last page are then forbidden.
        unsafe {
            let whole = mmap(ptr::null_mut(), room + 2 * PAGE, READ_AND_WRITE, PRIVATE_AND_EMPTY, -1, 0);
            assert!(whole as isize != -1, "no memory");
            assert_eq!(mprotect(whole, PAGE, NOTHING), 0);
            assert_eq!(mprotect(whole.add(PAGE + room), PAGE, NOTHING), 0);
            Guarded { begin: whole.add(PAGE).cast(), room }
        }
    }

    /// The last `length` bytes of the room, right before the forbidden page.
    pub fn at_the_end(&mut self, length: usize) -> &mut [u8] {
        assert!(length <= self.room);
        // SAFETY: inside the room, which this value owns.
        unsafe { std::slice::from_raw_parts_mut(self.begin.add(self.room - length), length) }
    }

    /// The first `length` bytes of the room, right behind the forbidden page.
    pub fn at_the_begin(&mut self, length: usize) -> &mut [u8] {
        assert!(length <= self.room);
        // SAFETY: inside the room, which this value owns.
        unsafe { std::slice::from_raw_parts_mut(self.begin, length) }
    }

    /// The last `length` numbers of the room. The room ends where a page ends, so they are aligned.
    pub fn numbers(&mut self, length: usize) -> &mut [i64] {
        assert!(length * 8 <= self.room);
        // SAFETY: inside the room, aligned, and every bit pattern is a number.
        unsafe { std::slice::from_raw_parts_mut(self.begin.add(self.room - length * 8).cast(), length) }
    }
}

impl Drop for Guarded {
    fn drop(&mut self) {
        // SAFETY: the region of `new`, given back once.
        unsafe {
            munmap(self.begin.sub(PAGE).cast(), self.room + 2 * PAGE);
        }
    }
}
