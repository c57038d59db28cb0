//! Memory between two pages that may not be touched, so that a read or write beside what was lent stops the test at once.

use std::ffi::{c_int, c_void};

mod libc {
    use super::*;

    pub const PROT_NONE: c_int = 0;
    pub const PROT_READ: c_int = 1;
    pub const PROT_WRITE: c_int = 2;
    /// MAP_PRIVATE and MAP_ANONYMOUS on Linux.
    pub const MAP_FLAGS: c_int = 0x22;

    unsafe extern "C" {
        pub fn mmap(address: *mut c_void, length: usize, protection: c_int, flags: c_int, file: c_int, offset: i64) -> *mut c_void;
        pub fn mprotect(address: *mut c_void, length: usize, protection: c_int) -> c_int;
        pub fn munmap(address: *mut c_void, length: usize) -> c_int;
    }
}

/// A page, or a whole number of them where pages are smaller.
const PAGE: usize = 65_536;

/// Which end of the lent memory touches a closed page.
#[derive(Clone, Copy, Debug, PartialEq, Eq)]
pub enum Edge {
    Front,
    Back,
}

pub struct Fence {
    /// The first byte between the closed pages.
    inside: *mut u8,
    room: usize,
}

impl Fence {
    /// Room for at least `bytes`.
    pub fn new(bytes: usize) -> Self {
        let room = bytes.next_multiple_of(PAGE);
        // Safety: a new mapping of its own; both ends are closed, the middle is ours.
        unsafe {
            let start = libc::mmap(std::ptr::null_mut(), room + 2 * PAGE, libc::PROT_NONE, libc::MAP_FLAGS, -1, 0);
            assert!(start as isize != -1, "no memory for fences");
            let inside = start.cast::<u8>().add(PAGE);
            let fence = Fence { inside, room };
            fence.protect(libc::PROT_READ | libc::PROT_WRITE);
            fence
        }
    }

    fn protect(&self, protection: c_int) {
        // Safety: this range belongs to the mapping of `new`.
        let failed = unsafe { libc::mprotect(self.inside.cast(), self.room, protection) };
        assert!(failed == 0, "mprotect failed");
    }

    fn place(&self, bytes: usize, edge: Edge) -> *mut u8 {
        assert!(bytes <= self.room);
        match edge {
            Edge::Front => self.inside,
            // Safety: bytes is at most the room; with 0 bytes this is the first closed byte, which is not read.
            Edge::Back => unsafe { self.inside.add(self.room - bytes) },
        }
    }

    /// A copy of the bytes that can only be read.
    pub fn lend(&mut self, bytes: &[u8], edge: Edge) -> &[u8] {
        let place = self.place(bytes.len(), edge);
        self.protect(libc::PROT_READ | libc::PROT_WRITE);
        // Safety: `place` has room for the bytes, and `self` is lent for as long as the slice lives.
        unsafe {
            std::ptr::copy_nonoverlapping(bytes.as_ptr(), place, bytes.len());
            self.protect(libc::PROT_READ);
            std::slice::from_raw_parts(place, bytes.len())
        }
    }

    /// A copy of the records that can be written.
    pub fn lend_table<T: Copy>(&mut self, records: &[T], edge: Edge) -> &mut [T] {
        assert!(align_of::<T>() == 1);
        let place = self.place(size_of_val(records), edge).cast::<T>();
        // Safety: as above; records need no alignment.
        unsafe {
            std::ptr::copy_nonoverlapping(records.as_ptr(), place, records.len());
            std::slice::from_raw_parts_mut(place, records.len())
        }
    }
}

impl Drop for Fence {
    fn drop(&mut self) {
        // Safety: the whole mapping of `new`, which nobody else holds.
        unsafe { libc::munmap(self.inside.sub(PAGE).cast(), self.room + 2 * PAGE) };
    }
}
