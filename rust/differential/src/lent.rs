//! Memory that is lent to the library: it ends where the next byte can't be touched, and bytes of a known value stand before it.

use std::ffi::{c_int, c_void};

extern "C" {
    fn mmap(at: *mut c_void, bytes: usize, protection: c_int, flags: c_int, file: c_int, offset: i64) -> *mut c_void;
    fn mprotect(at: *mut c_void, bytes: usize, protection: c_int) -> c_int;
    fn munmap(at: *mut c_void, bytes: usize) -> c_int;
}

const NO_ACCESS: c_int = 0;
const READ_AND_WRITE: c_int = 1 | 2;
const PRIVATE_AND_ANONYMOUS: c_int = 2 | 0x20;
const PAGE: usize = 4096;

/// Bytes before what is lent, all of one value.
const FENCE: usize = 64;
const FENCE_BYTE: u8 = 0xc3;

/// A region of whole pages, the last of which can't be touched.
pub struct Lent {
    start: *mut u8,
    /// Of the pages that can be touched.
    bytes: usize,
    /// Of what is lent, which ends with those pages.
    lent: usize,
}

impl Lent {
    /// With nothing lent.
    pub fn new() -> Lent {
        let mut lent = Lent { start: std::ptr::null_mut(), bytes: 0, lent: 0 };
        lent.fit(0);
        lent
    }

    /// Makes room for so many bytes behind the fence.
    fn fit(&mut self, lent: usize) {
        if self.bytes < FENCE + lent {
            let bytes = (FENCE + lent).next_power_of_two().max(16 * PAGE);
            self.release();
            // SAFETY: a new region, of which the last page is closed and nothing else is assumed.
            unsafe {
                let start = mmap(std::ptr::null_mut(), bytes + PAGE, READ_AND_WRITE, PRIVATE_AND_ANONYMOUS, -1, 0);
                assert_ne!(start as isize, -1, "no memory");
                self.start = start.cast();
                assert_eq!(mprotect(self.start.add(bytes).cast(), PAGE, NO_ACCESS), 0);
            }
            self.bytes = bytes;
        }
        self.lent = lent;
        self.fence().fill(FENCE_BYTE);
    }

    fn release(&mut self) {
        if !self.start.is_null() {
            // SAFETY: the region was mapped by `fit` and nothing borrows it.
            unsafe { munmap(self.start.cast(), self.bytes + PAGE) };
        }
    }

    fn fence(&mut self) -> &mut [u8] {
        // SAFETY: `fit` made room for the fence and what is lent behind it.
        unsafe { std::slice::from_raw_parts_mut(self.start.add(self.bytes - self.lent - FENCE), FENCE) }
    }

    /// Lends a copy of these values; if there are none, the closed page.
    pub fn lend<T: Copy>(&mut self, values: &[T]) -> *mut T {
        self.fit(size_of_val(values));
        // SAFETY: the region has room for the values; its end is aligned for them, and so is their start.
        unsafe {
            let at = self.start.add(self.bytes - self.lent).cast::<T>();
            at.copy_from_nonoverlapping(values.as_ptr(), values.len());
            at
        }
    }

    /// What is lent now, as values of the type that was lent.
    pub fn now<T: Copy>(&self) -> Vec<T> {
        // SAFETY: as in `lend`.
        let lent = unsafe { self.start.add(self.bytes - self.lent).cast::<T>() };
        (0..self.lent / size_of::<T>()).map(|n| unsafe { *lent.add(n) }).collect()
    }

    /// Whether nothing before what is lent was written.
    pub fn fence_stands(&mut self) -> bool {
        self.fence().iter().all(|byte| *byte == FENCE_BYTE)
    }
}

impl Default for Lent {
    fn default() -> Lent {
        Lent::new()
    }
}

impl Drop for Lent {
    fn drop(&mut self) {
        self.release();
    }
}
