//! A slice in pages of its own, with a forbidden page before and behind: the processor stops whoever steps over the end
//! that touches one, also code that no sanitizer has instrumented.

use compare::case::POISON;
use std::ffi::{c_int, c_void};

extern "C" {
    fn mmap(at: *mut c_void, len: usize, protection: c_int, flags: c_int, file: c_int, offset: i64) -> *mut c_void;
    fn mprotect(at: *mut c_void, len: usize, protection: c_int) -> c_int;
}

const PAGE: usize = 4096;
const NONE: c_int = 0;
const READ_WRITE: c_int = 3;
const PRIVATE_ANONYMOUS: c_int = 0x22;

/// How many bytes at a slice's free end are watched for writing.
const WATCHED: usize = 64;

/// Which end of the slice touches a forbidden page.
#[derive(Debug, Clone, Copy, PartialEq, Eq)]
pub enum At {
    Start,
    End,
}

pub struct Pages {
    first: *mut u8,
    room: usize,
}

impl Pages {
    /// Room for slices of up to `most` bytes.
    pub fn new(most: usize) -> Pages {
        let room = (most + WATCHED).div_ceil(PAGE) * PAGE;
        // SAFETY: a new mapping, of which the part between its first and last page is opened.
        unsafe {
            let all = mmap(std::ptr::null_mut(), room + 2 * PAGE, NONE, PRIVATE_ANONYMOUS, -1, 0);
            assert!(all as isize != -1, "no memory");
            let first = all.cast::<u8>().add(PAGE);
            assert_eq!(mprotect(first.cast(), room, READ_WRITE), 0);
            Pages { first, room }
        }
    }

    fn whole(&mut self) -> &mut [u8] {
        // SAFETY: the room is open, is nobody else's and stays for ever.
        unsafe { std::slice::from_raw_parts_mut(self.first, self.room) }
    }

    fn free(&mut self, len: usize, at: At) -> (&mut [u8], &mut [u8]) {
        let room = self.room;
        match at {
            At::Start => {
                let (slice, free) = self.whole()[..len + WATCHED].split_at_mut(len);
                (slice, free)
            }
            At::End => {
                let (free, slice) = self.whole()[room - len - WATCHED..].split_at_mut(WATCHED);
                (slice, free)
            }
        }
    }

    /// A slice of `len` bytes of poison.
    pub fn lend(&mut self, len: usize, at: At) -> &mut [u8] {
        let (slice, free) = self.free(len, at);
        slice.fill(POISON);
        free.fill(POISON);
        slice
    }

    /// A copy of some bytes.
    pub fn copy(&mut self, bytes: &[u8], at: At) -> &[u8] {
        let slice = self.lend(bytes.len(), at);
        slice.copy_from_slice(bytes);
        slice
    }

    /// Whether the bytes at the free end of the slice that was lent last are as they were.
    pub fn untouched(&mut self, len: usize, at: At) -> bool {
        self.free(len, at).1.iter().all(|b| *b == POISON)
    }
}
