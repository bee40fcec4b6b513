//! How many calls were made. Only the feature `counted` counts them: a benchmark pays nothing.

#[cfg(feature = "counted")]
mod count {
    use std::sync::atomic::{AtomicU64, Ordering};

    static CALLS: AtomicU64 = AtomicU64::new(0);

    /// By all threads so far.
    pub fn calls() -> u64 {
        CALLS.load(Ordering::Relaxed)
    }

    pub(crate) fn count() {
        CALLS.fetch_add(1, Ordering::Relaxed);
    }
}

#[cfg(feature = "counted")]
pub use count::calls;

/// A call's answer.
#[inline]
pub(crate) fn counted(answer: u64) -> u64 {
    #[cfg(feature = "counted")]
    count::count();
    answer
}
