//! A run of more bytes than 32 bits count, of which only the first page may be touched.

use crate::mapping::{page_size, Access, Mapping};
use std::slice;

pub struct Vast(Mapping);

/// The run has so many bytes, whose low 32 bits are 0, and one page more.
pub const VAST: u64 = 1 << 32;

impl Vast {
    /// A run that starts with these bytes, less than a page of them.
    pub fn of(front: &[u8]) -> Vast {
        let mut vast = Vast(Mapping::new(VAST as usize + page_size()));
        vast.0.permit(page_size(), Access::Write);
        vast.page()[..front.len()].copy_from_slice(front);
        vast
    }

    /// The first page.
    pub fn page(&mut self) -> &mut [u8] {
        // SAFETY: the mapping has many pages, the first may be written, and nobody else has it.
        unsafe { slice::from_raw_parts_mut(self.0.first, page_size()) }
    }

    /// The first byte of all.
    pub fn start(&mut self) -> *mut u8 {
        self.0.first
    }
}
