//! Slices that stand in pages of their own and touch, at their end or at their front, a page that no call may
//! read or write: a byte beyond them is a fault that ends the program.

use crate::inputs::random::Random;
use crate::inputs::walks::bytes;
use std::ffi::c_void;

// SAFETY: the two are the system's, and are called as their manual says.
unsafe extern "C" {
    fn mmap(at: *mut c_void, len: usize, protection: i32, flags: i32, file: i32, offset: i64) -> *mut c_void;
    fn mprotect(at: *mut c_void, len: usize, protection: i32) -> i32;
}

const PAGE: usize = 4096;
const NOTHING: i32 = 0;
const READ_WRITE: i32 = 3;
const PRIVATE_ANONYMOUS: i32 = 0x22;

/// Pages with one on either side that may not be touched.
pub struct Zone {
    first: *mut u8,
    len: usize,
}

impl Zone {
    pub fn new(bytes: usize) -> Zone {
        let len = bytes.div_ceil(PAGE) * PAGE;
        unsafe {
            let all = mmap(std::ptr::null_mut(), len + 2 * PAGE, NOTHING, PRIVATE_ANONYMOUS, -1, 0);
            assert!(all as isize != -1, "no pages");
            let first = all.cast::<u8>().add(PAGE);
            assert_eq!(mprotect(first.cast(), len, READ_WRITE), 0, "no pages to write");
            Zone { first, len }
        }
    }

    /// Puts bytes at the end, or at the front; where there are none, the place is a page that may not be touched.
    pub fn lend(&self, random: &mut Random, bytes: &[u8]) -> (*mut u8, usize) {
        assert!(bytes.len() <= self.len);
        let at_end = random.below(4) > 0;
        let place = unsafe {
            match (bytes.is_empty(), at_end) {
                (false, true) => self.first.add(self.len - bytes.len()),
                (false, false) => self.first,
                (true, true) => self.first.add(self.len),
                (true, false) => std::ptr::null_mut(),
            }
        };
        if !bytes.is_empty() {
            unsafe { std::ptr::copy_nonoverlapping(bytes.as_ptr(), place, bytes.len()) };
        }
        (place, bytes.len())
    }

    pub fn lend_words(&self, random: &mut Random, words: &[u32]) -> (*mut u32, usize) {
        let (place, len) = self.lend(random, &bytes(words));
        (place.cast(), len / 4)
    }
}
