//! Memory in which a byte read or written outside a slice is seen: the slice ends where a protected page starts, or
//! starts where one ends, and canaries stand on its other side. Linux on x86-64.

use std::ffi::{c_int, c_void};
use std::{ptr, slice};

extern "C" {
    fn mmap(address: *mut c_void, length: usize, access: c_int, flags: c_int, file: c_int, offset: i64) -> *mut c_void;
    fn mprotect(address: *mut c_void, length: usize, access: c_int) -> c_int;
    fn munmap(address: *mut c_void, length: usize) -> c_int;
}

const NO_ACCESS: c_int = 0;
const READ: c_int = 1;
const READ_AND_WRITE: c_int = 3;
const PRIVATE_AND_ANONYMOUS: c_int = 0x22;

const PAGE: usize = 4_096;
/// Bytes between the two protected pages.
const ROOM: usize = 18 * PAGE;
const CANARIES: usize = 256;

/// The longest slice that can be lent.
pub const LONGEST: usize = ROOM - CANARIES;

/// On which side of the slice the protected page is. The canaries are on the other.
#[derive(Clone, Copy, Debug, PartialEq, Eq)]
pub enum Page {
    Before,
    After,
}

/// Eighteen pages between two protected ones, so that a page of accounts and a place more can be held.
pub struct Guarded {
    mapping: *mut u8,
    start: usize,
    length: usize,
    page: Page,
}

impl Guarded {
    pub fn new() -> Guarded {
        // SAFETY: a fresh mapping that nobody else knows.
        let mapping = unsafe { mmap(ptr::null_mut(), ROOM + 2 * PAGE, NO_ACCESS, PRIVATE_AND_ANONYMOUS, -1, 0) };
        assert!(mapping as isize != -1, "no memory for guarded slices");
        let guarded = Guarded { mapping: mapping.cast(), start: 0, length: 0, page: Page::After };
        guarded.open(READ_AND_WRITE);
        guarded
    }

    /// Opens what lies between the protected pages.
    fn open(&self, access: c_int) {
        // SAFETY: the middle of the mapping.
        let status = unsafe { mprotect(self.mapping.add(PAGE).cast(), ROOM, access) };
        assert!(status == 0, "the guarded slices cannot be opened");
    }

    /// Puts these bytes beside a protected page, and canaries on their other side.
    pub fn hold(&mut self, bytes: &[u8], page: Page) {
        assert!(bytes.len() <= LONGEST);
        self.length = bytes.len();
        self.page = page;
        self.start = match page {
            Page::Before => 0,
            Page::After => ROOM - bytes.len(),
        };
        let (start, length) = (self.start, self.length);
        self.room_mut()[start..start + length].copy_from_slice(bytes);
        let canaries = self.canaries();
        for (place, byte) in (canaries.start..).zip(&mut self.room_mut()[canaries]) {
            *byte = canary(place);
        }
    }

    pub fn bytes(&self) -> &[u8] {
        &self.room()[self.start..self.start + self.length]
    }

    pub fn bytes_mut(&mut self) -> &mut [u8] {
        let (start, length) = (self.start, self.length);
        &mut self.room_mut()[start..start + length]
    }

    /// Lends the slice to be read; where it is locked, a byte written to it is seen, even if it is written back.
    pub fn locked<T>(&self, is_locked: bool, read: impl FnOnce(&[u8]) -> T) -> T {
        if !is_locked {
            return read(self.bytes());
        }
        self.open(READ);
        let result = read(self.bytes());
        self.open(READ_AND_WRITE);
        result
    }

    /// Whether no byte beside the slice was changed.
    pub fn canaries_stand(&self) -> bool {
        let canaries = self.canaries();
        (canaries.start..).zip(&self.room()[canaries]).all(|(place, &byte)| byte == canary(place))
    }

    fn canaries(&self) -> std::ops::Range<usize> {
        match self.page {
            Page::Before => self.length..self.length + CANARIES,
            Page::After => self.start - CANARIES..self.start,
        }
    }

    fn room(&self) -> &[u8] {
        // SAFETY: readable memory that this value owns.
        unsafe { slice::from_raw_parts(self.mapping.add(PAGE), ROOM) }
    }

    fn room_mut(&mut self) -> &mut [u8] {
        // SAFETY: writable memory that this value owns.
        unsafe { slice::from_raw_parts_mut(self.mapping.add(PAGE), ROOM) }
    }
}

impl Drop for Guarded {
    fn drop(&mut self) {
        // SAFETY: the whole mapping, which nobody uses any more.
        unsafe { munmap(self.mapping.cast(), ROOM + 2 * PAGE) };
    }
}

/// Neighbouring canaries differ, so that bytes moved by one place are seen as well.
fn canary(place: usize) -> u8 {
    0xc5 ^ (place * 37) as u8
}

#[cfg(test)]
mod tests {
    use super::*;

    #[test]
    fn slices_stand_beside_the_page() {
        let mut guarded = Guarded::new();
        for length in [0, 1, 532, 5_472, 65_712, LONGEST] {
            let bytes: Vec<u8> = (0..length).map(|place| place as u8).collect();
            guarded.hold(&bytes, Page::After);
            assert_eq!(guarded.bytes(), bytes);
            assert_eq!(guarded.bytes().as_ptr_range().end as usize % PAGE, 0);
            guarded.hold(&bytes, Page::Before);
            assert_eq!(guarded.bytes(), bytes);
            assert_eq!(guarded.bytes().as_ptr() as usize % PAGE, 0);
        }
    }

    #[test]
    fn a_changed_canary_is_seen() {
        let mut guarded = Guarded::new();
        guarded.hold(&[1, 2, 3], Page::Before);
        guarded.bytes_mut()[2] = 9;
        assert!(guarded.canaries_stand());
        guarded.room_mut()[3] ^= 1;
        assert!(!guarded.canaries_stand());
        guarded.hold(&[1, 2, 3], Page::After);
        assert!(guarded.canaries_stand());
        guarded.room_mut()[ROOM - 4] = 0;
        assert!(!guarded.canaries_stand());
    }
}
