//! Whole pages between guard pages. Those that are given up are kept for the thread's next ones.

use crate::mapping::{page_size, Access, Mapping};
use std::cell::RefCell;
use std::slice;

pub struct Pages {
    /// There is one until it is given up.
    mapping: Option<Mapping>,
    access: Access,
}

thread_local! {
    static KEPT: RefCell<Vec<(Mapping, Access)>> = const { RefCell::new(Vec::new()) };
}

/// As many are kept.
const MOST: usize = 16;

impl Pages {
    /// As many writable pages as so many bytes need, and at least one.
    pub fn take(bytes: usize) -> Pages {
        let page = page_size();
        let length = page * bytes.div_ceil(page).max(1);
        let kept = KEPT.with_borrow_mut(|kept| {
            let at = kept.iter().position(|(of, _)| of.length == length)?;
            Some(kept.swap_remove(at))
        });
        let (mapping, access) = kept.unwrap_or_else(|| (Mapping::new(length), Access::None));
        let mut pages = Pages {
            mapping: Some(mapping),
            access,
        };
        pages.permit(Access::Write);
        pages
    }

    pub fn permit(&mut self, access: Access) {
        if self.access != access {
            let mapping = self.mapping.as_mut().expect("a mapping");
            mapping.permit(mapping.length, access);
            self.access = access;
        }
    }

    /// The bytes of all pages.
    pub fn bytes(&self) -> &[u8] {
        let mapping = self.mapping.as_ref().expect("a mapping");
        // SAFETY: the mapping has so many bytes, and they may be read.
        unsafe { slice::from_raw_parts(mapping.first, mapping.length) }
    }

    /// The same, to write to.
    pub fn bytes_mut(&mut self) -> &mut [u8] {
        assert!(self.access == Access::Write, "the pages are read-only");
        let mapping = self.mapping.as_mut().expect("a mapping");
        // SAFETY: the mapping has so many bytes, they may be written, and nobody else has them.
        unsafe { slice::from_raw_parts_mut(mapping.first, mapping.length) }
    }
}

impl Drop for Pages {
    fn drop(&mut self) {
        let mapping = self.mapping.take().expect("a mapping");
        // Where the thread ends, or enough are kept, the mapping is dropped.
        let _ = KEPT.try_with(|kept| {
            let mut kept = kept.borrow_mut();
            if kept.len() < MOST {
                kept.push((mapping, self.access));
            }
        });
    }
}
