//! Buffers as a careless caller lends them: at an odd address, with other data on both sides;
//! and mappings of gigabytes that nobody has touched.

use super::Bytes;
use std::{ops, ptr, slice};

const GUARD: u8 = 0xa5;
const GUARDS: usize = 32;

/// Bytes to lend. `back` gives them again and fails where a guard beside them has changed.
pub struct Lent {
    store: Vec<u8>,
    at: usize,
    length: usize,
}

impl Lent {
    pub fn new(bytes: &[u8]) -> Lent {
        let mut store = vec![GUARD; bytes.len() + 2 * GUARDS];
        let at = GUARDS - 1 + store.as_ptr() as usize % 2;
        store[at..at + bytes.len()].copy_from_slice(bytes);
        Lent {
            store,
            at,
            length: bytes.len(),
        }
    }

    pub fn bytes(&mut self) -> &mut [u8] {
        &mut self.store[self.at..self.at + self.length]
    }

    pub fn back(self) -> Bytes {
        let (before, rest) = self.store.split_at(self.at);
        let (bytes, after) = rest.split_at(self.length);
        let untouched = |guards: &[u8]| guards.iter().all(|&byte| byte == GUARD);
        assert!(untouched(before) && untouched(after), "a guard has changed");
        Bytes(bytes.to_vec())
    }
}

/// Zeros that take no memory until they are written to.
pub struct Mapping {
    start: *mut u8,
    length: usize,
}

extern "C" {
    fn mmap(at: *mut u8, length: usize, access: i32, kind: i32, fd: i32, offset: i64) -> *mut u8;
    fn munmap(at: *mut u8, length: usize) -> i32;
}

const READ_WRITE: i32 = 1 | 2;
const PRIVATE_ANONYMOUS_NORESERVE: i32 = 0x2 | 0x20 | 0x4000;

impl Mapping {
    pub fn new(length: usize) -> Mapping {
        let kind = PRIVATE_ANONYMOUS_NORESERVE;
        // SAFETY: a new anonymous mapping takes nothing from anyone.
        let start = unsafe { mmap(ptr::null_mut(), length, READ_WRITE, kind, -1, 0) };
        assert_ne!(start as usize, usize::MAX, "no mapping of {length} bytes");
        Mapping { start, length }
    }
}

impl Drop for Mapping {
    fn drop(&mut self) {
        // SAFETY: the mapping is this one's own, and nothing refers to it any more.
        unsafe { munmap(self.start, self.length) };
    }
}

impl ops::Deref for Mapping {
    type Target = [u8];
    fn deref(&self) -> &[u8] {
        // SAFETY: the mapping holds for its length and reads as zeros.
        unsafe { slice::from_raw_parts(self.start, self.length) }
    }
}

impl ops::DerefMut for Mapping {
    fn deref_mut(&mut self) -> &mut [u8] {
        // SAFETY: as above, and it is borrowed for writing.
        unsafe { slice::from_raw_parts_mut(self.start, self.length) }
    }
}
