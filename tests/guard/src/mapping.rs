//! Pages by the system's calls, with a guard page before the first and another behind the last.

use std::ffi::{c_int, c_void};
use std::ptr;

#[derive(Clone, Copy, PartialEq, Eq)]
pub enum Access {
    None,
    Read,
    Write,
}

/// The pages between the guard pages.
pub struct Mapping {
    pub first: *mut u8,
    pub length: usize,
}

impl Mapping {
    /// So many bytes in whole pages, which nobody may touch yet.
    pub fn new(length: usize) -> Mapping {
        const PRIVATE: c_int = 2;
        const ANONYMOUS: c_int = 0x20;
        let page = page_size();
        let whole = length + 2 * page;
        let (none, flags) = (protection(Access::None), PRIVATE | ANONYMOUS);
        // SAFETY: new pages, which nobody has yet.
        let start = unsafe { mmap(ptr::null_mut(), whole, none, flags, -1, 0) };
        assert!(start.addr() != usize::MAX, "no pages are to be had");
        Mapping {
            // SAFETY: within the new pages.
            first: unsafe { start.cast::<u8>().add(page) },
            length,
        }
    }

    /// What may be done to the first so many bytes, which are whole pages. Nobody may have borrowed them.
    pub fn permit(&mut self, length: usize, access: Access) {
        assert!(length <= self.length);
        // SAFETY: these pages are all this mapping's.
        let failed = unsafe { mprotect(self.first.cast(), length, protection(access)) };
        assert_eq!(failed, 0, "the pages' protection stays as it was");
    }
}

impl Drop for Mapping {
    fn drop(&mut self) {
        let page = page_size();
        // SAFETY: the whole mapping with its guard pages, which nobody borrows any more.
        let _ = unsafe { munmap(self.first.sub(page).cast(), self.length + 2 * page) };
    }
}

fn protection(access: Access) -> c_int {
    const READ: c_int = 1;
    const WRITE: c_int = 2;
    match access {
        Access::None => 0,
        Access::Read => READ,
        Access::Write => READ | WRITE,
    }
}

pub fn page_size() -> usize {
    getpagesize() as usize
}

unsafe extern "C" {
    safe fn getpagesize() -> c_int;
    fn mmap(
        address: *mut c_void,
        length: usize,
        protection: c_int,
        flags: c_int,
        file: c_int,
        offset: i64,
    ) -> *mut c_void;
    fn mprotect(address: *mut c_void, length: usize, protection: c_int) -> c_int;
    fn munmap(address: *mut c_void, length: usize) -> c_int;
}
