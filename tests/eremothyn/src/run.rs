//! What a call may write, as C has it: a pointer and a length. Bytes, or numbers of 16 or 32 bits, which are counted, not
//! their bytes.

use std::marker::PhantomData;

pub struct Run<'a, T = u8> {
    pub(crate) start: *mut T,
    pub(crate) length: u64,
    lent: PhantomData<&'a mut [T]>,
}

impl<T> Run<'_, T> {
    /// A run at any place, of any length.
    ///
    /// # Safety
    /// What a call touches of it may be written, and nobody else has it.
    pub unsafe fn at(start: *mut T, length: u64) -> Run<'static, T> {
        Run {
            start,
            length,
            lent: PhantomData,
        }
    }
}

impl<'a, T> From<&'a mut [T]> for Run<'a, T> {
    fn from(lent: &'a mut [T]) -> Run<'a, T> {
        Run {
            start: lent.as_mut_ptr(),
            length: lent.len() as u64,
            lent: PhantomData,
        }
    }
}
