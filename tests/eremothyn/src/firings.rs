//! Lists of firings.

use crate::{Run, Table};
use reference::answer::{filled_from_c, Filled};

// SAFETY: a table and a run have as many bytes or numbers as their lengths say.
impl Table<'_> {
    /// Fills a run with an entry's firings after a and up to b.
    pub fn firings<'r>(
        self,
        entry: u64,
        [a, b]: [u64; 2],
        run: impl Into<Run<'r, u32>>,
    ) -> Result<Filled, u64> {
        let run = run.into();
        filled_from_c(unsafe { self.eremothyn_firings(entry, a, b, run.start, run.length) })
    }

    /// Fills two runs with all entries' firings after a and up to b: their minutes, and the entries' numbers.
    pub fn merged_firings<'m, 'e>(
        self,
        [a, b]: [u64; 2],
        minutes: impl Into<Run<'m, u32>>,
        entries: impl Into<Run<'e, u16>>,
    ) -> Result<Filled, u64> {
        let (minutes, entries) = (minutes.into(), entries.into());
        filled_from_c(unsafe {
            self.eremothyn_merged_firings(
                a,
                b,
                minutes.start,
                minutes.length,
                entries.start,
                entries.length,
            )
        })
    }
}
