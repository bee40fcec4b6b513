//! Bytes to lend to a call. They end where a guard page starts, which nobody may touch, so that a call that leaves them
//! dies by SIGSEGV. For Linux.

mod death;
mod mapping;
mod pages;
mod vast;

pub use vast::{Vast, VAST};

use mapping::Access;
use pages::Pages;
use std::ops::Deref;
use std::slice;
use std::sync::OnceLock;

/// What stands in front of the bytes, again and again up to the start of their first page; another guard page is before
/// it. Whoever reads it as a part of a table goes wrong.
const FRONT: &[u8] = b"60 * * * * \"\\";

/// A copy of some bytes, just before a guard page. Empty ones are at the guard page itself.
pub struct Guarded {
    pages: Pages,
    length: usize,
}

impl Guarded {
    /// A copy that nobody may write to.
    pub fn read_only(bytes: &[u8]) -> Guarded {
        let mut guarded = Guarded::writable(bytes);
        guarded.pages.permit(Access::Read);
        death::announce(&guarded);
        guarded
    }

    /// Calls with a copy of the bytes, which hold afterwards what the copy does. Nothing in front of it may change.
    pub fn lend<T>(bytes: &mut [u8], call: impl FnOnce(&mut [u8]) -> T) -> T {
        let mut guarded = Guarded::writable(bytes);
        let start = guarded.start();
        let answer = call(&mut guarded.pages.bytes_mut()[start..]);
        assert!(
            guarded.pages.bytes()[..start] == *front(start),
            "the call wrote in front of {} lent bytes",
            bytes.len()
        );
        bytes.copy_from_slice(&guarded);
        answer
    }

    /// The same with numbers.
    pub fn lend_numbers<N: Number, T>(numbers: &mut [N], call: impl FnOnce(&mut [N]) -> T) -> T {
        let (count, size) = (numbers.len(), size_of_val(numbers));
        // SAFETY: the same place as bytes, and any bytes are numbers.
        let bytes = unsafe { slice::from_raw_parts_mut(numbers.as_mut_ptr().cast::<u8>(), size) };
        Guarded::lend(bytes, |bytes| {
            // SAFETY: as many numbers as were given; they end where a page does, so the first is aligned.
            call(unsafe { slice::from_raw_parts_mut(bytes.as_mut_ptr().cast::<N>(), count) })
        })
    }

    fn writable(bytes: &[u8]) -> Guarded {
        let length = bytes.len();
        let mut guarded = Guarded {
            pages: Pages::take(length),
            length,
        };
        let start = guarded.start();
        let (before, lent) = guarded.pages.bytes_mut().split_at_mut(start);
        before.copy_from_slice(front(start));
        lent.copy_from_slice(bytes);
        guarded
    }

    /// How many bytes stand in front of the copy: less than a page, or all of one if there is nothing to copy.
    fn start(&self) -> usize {
        self.pages.bytes().len() - self.length
    }
}

impl Deref for Guarded {
    type Target = [u8];

    fn deref(&self) -> &[u8] {
        &self.pages.bytes()[self.start()..]
    }
}

/// Numbers of which any bytes are some.
///
/// # Safety
/// It is so, and their size divides a page's.
pub unsafe trait Number {}

unsafe impl Number for u16 {}
unsafe impl Number for u32 {}

/// So many bytes that a buffer holds before a call.
pub fn filled(length: usize) -> Vec<u8> {
    (0..length).map(|at| (at * 29 + 7) as u8).collect()
}

/// So many bytes to stand in front: the last ones of a page of them.
fn front(length: usize) -> &'static [u8] {
    static PAGE: OnceLock<Vec<u8>> = OnceLock::new();
    let page = PAGE.get_or_init(|| {
        let size = mapping::page_size();
        let mut page = FRONT.repeat(size.div_ceil(FRONT.len()));
        page.split_off(page.len() - size)
    });
    &page[page.len() - length..]
}
