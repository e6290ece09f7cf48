//! Stretches of memory between two pages that can be neither read nor written, kept for the next call of their thread.

use std::cell::RefCell;
use std::ffi::{c_int, c_void};
use std::ptr::{null_mut, slice_from_raw_parts_mut};

/// The bytes of a page.
const PAGE: usize = 4_096;

// Linux's numbers of mmap(2) and mprotect(2).
const PROT_NONE: c_int = 0;
const PROT_READ: c_int = 1;
const PROT_WRITE: c_int = 2;
const MAP_PRIVATE: c_int = 0x02;
const MAP_ANONYMOUS: c_int = 0x20;

extern "C" {
    fn mmap(at: *mut c_void, bytes: usize, access: c_int, kind: c_int, file: c_int, from: i64) -> *mut c_void;
    fn mprotect(at: *mut c_void, bytes: usize, access: c_int) -> c_int;
}

thread_local! {
    static FREE: RefCell<Vec<Pages>> = const { RefCell::new(Vec::new()) };
}

/// Accessible bytes, a whole number of pages, between two pages that are not.
pub struct Pages {
    first: *mut u8,
    bytes: usize,
}

impl Pages {
    /// A stretch of at least `bytes` bytes, their contents left over from an earlier call.
    pub fn take(bytes: usize) -> Pages {
        let bytes = bytes.div_ceil(PAGE).max(1).next_power_of_two() * PAGE;
        let found = FREE.with_borrow_mut(|free| {
            let at = free.iter().position(|pages| pages.bytes == bytes)?;
            Some(free.swap_remove(at))
        });
        found.unwrap_or_else(|| Pages::mapped(bytes))
    }

    /// A new stretch of `bytes` bytes.
    fn mapped(bytes: usize) -> Pages {
        // SAFETY: a new mapping that no other memory overlaps, of which the inner pages are opened.
        unsafe {
            let front = mmap(null_mut(), bytes + 2 * PAGE, PROT_NONE, MAP_PRIVATE | MAP_ANONYMOUS, -1, 0);
            assert!(front as isize != -1, "no memory for a stretch of {bytes} bytes");
            let first = front.cast::<u8>().add(PAGE);
            assert!(mprotect(first.cast(), bytes, PROT_READ | PROT_WRITE) == 0, "pages that stay shut");
            Pages { first, bytes }
        }
    }

    /// The stretch's bytes.
    pub fn all(&self) -> *mut [u8] {
        slice_from_raw_parts_mut(self.first, self.bytes)
    }

    /// Keeps the stretch for the next that is taken.
    pub fn keep(self) {
        FREE.with_borrow_mut(|free| free.push(self));
    }
}
