//! Records, and the C functions that take them.

use crate::calls::counted;
use crate::Run;
use reference::answer::{from_c, Answer};
use std::marker::PhantomData;

unsafe extern "C" {
    fn eremothyn_decompile(
        records: *const u8,
        records_length: u64,
        text: *mut u8,
        text_length: u64,
    ) -> u64;
    fn eremothyn_record_fault(records: *const u8, records_length: u64) -> u64;
}

/// Records for a call.
#[derive(Clone, Copy)]
pub struct Records<'a> {
    start: *const u8,
    length: u64,
    lent: PhantomData<&'a [u8]>,
}

// SAFETY: records and a run have as many bytes as their lengths say.
impl<'a> Records<'a> {
    pub fn of(bytes: &'a [u8]) -> Records<'a> {
        // SAFETY: the bytes are borrowed for as long as the records live.
        unsafe { Records::at(bytes.as_ptr(), bytes.len() as u64) }
    }

    /// Records at any place, of any length.
    ///
    /// # Safety
    /// What a call touches of them may be read, and nobody writes to it.
    pub unsafe fn at(start: *const u8, length: u64) -> Records<'a> {
        Records {
            start,
            length,
            lent: PhantomData,
        }
    }

    /// The length of the normal text, which is written to the front of a run.
    pub fn decompile<'t>(self, text: impl Into<Run<'t>>) -> Answer {
        let text = text.into();
        from_c(counted(unsafe {
            eremothyn_decompile(self.start, self.length, text.start, text.length)
        }))
    }

    /// The number of the first bad record, or 0.
    pub fn fault(self) -> u64 {
        counted(unsafe { eremothyn_record_fault(self.start, self.length) })
    }
}
