//! Lists of firings, as the library and the reference program fill them. Every number of a run is compared, those behind the
//! list too, which hold what no list has.

use super::Compared;
use eremothyn::Filled;
use guard::Guarded;
use reference::table::firings::{filled, Firing};

/// What so many places hold before a call: no minutes of the calendar.
fn minutes(length: usize) -> Vec<u32> {
    (0..length).map(|at| !(at as u32 % 1_000)).collect()
}

/// The same: no entries of a table.
fn entries(length: usize) -> Vec<u16> {
    (0..length).map(|at| !(at as u16 % 1_000)).collect()
}

impl Compared<'_> {
    /// Fills a run of so many numbers with an entry's firings after one minute and up to another.
    pub fn firings(&self, entry: u64, span: [u64; 2], length: usize) -> Result<Filled, u64> {
        let listed = self.second.firings(entry, span[0], span[1], length);
        let mut expected = minutes(length);
        if let Ok((list, _)) = &listed {
            expected[..list.len()].copy_from_slice(list);
        }
        let mut run = minutes(length);
        let answer = Guarded::lend_numbers(&mut run, |run| self.table().firings(entry, span, run));
        self.agree(
            ("firings", entry, span, length),
            (answer, run),
            (filled(&listed), expected),
        )
        .0
    }

    /// Fills two runs of so many numbers with the firings of all entries.
    pub fn merged_firings(&self, span: [u64; 2], lengths: [usize; 2]) -> Result<Filled, u64> {
        let listed = self.second.merged_firings(span[0], span[1], lengths);
        let mut expected = (minutes(lengths[0]), entries(lengths[1]));
        if let Ok((list, _)) = &listed {
            for (at, &(minute, entry)) in list.iter().enumerate() {
                expected.0[at] = minute;
                expected.1[at] = entry;
            }
        }
        let mut runs = (minutes(lengths[0]), entries(lengths[1]));
        let answer = Guarded::lend_numbers(&mut runs.0, |minutes| {
            Guarded::lend_numbers(&mut runs.1, |entries| {
                self.table().merged_firings(span, minutes, entries)
            })
        });
        self.agree(
            ("merged_firings", span, lengths),
            (answer, runs),
            (filled(&listed), expected),
        )
        .0
    }

    /// An entry's whole list by the reference program; none where it is refused.
    pub fn list(&self, entry: u64, span: [u64; 2], most: usize) -> Vec<u32> {
        let listed = self.second.firings(entry, span[0], span[1], most);
        listed.map(|(list, _)| list).unwrap_or_default()
    }

    /// A table's whole list by the reference program, cut at so many; none where it is refused.
    pub fn merged_list(&self, span: [u64; 2], most: usize) -> Vec<Firing> {
        let listed = self.second.merged_firings(span[0], span[1], [most; 2]);
        listed.map(|(list, _)| list).unwrap_or_default()
    }

    /// Fills runs that are just long enough, longer, and too short; of a long list the front alone.
    pub fn firings_into_all(&self, entry: u64, span: [u64; 2]) {
        for length in lengths(self.list(entry, span, MOST).len()) {
            let _ = self.firings(entry, span, length);
        }
    }

    /// The same with both runs of a table's list; then one is shorter than the other.
    pub fn merged_firings_into_all(&self, span: [u64; 2]) {
        let needed = self.merged_list(span, MOST).len();
        for length in lengths(needed) {
            let _ = self.merged_firings(span, [length; 2]);
            let _ = self.merged_firings(span, [length, needed + 7]);
            let _ = self.merged_firings(span, [needed + 7, length]);
        }
    }
}

/// As many firings of a long list are looked at.
const MOST: usize = 300;

/// Lengths of runs that are just long enough, longer, and too short.
fn lengths(needed: usize) -> [usize; 7] {
    let short = needed.saturating_sub(1);
    [needed, needed + 1, needed + 50, short, needed / 2, 1, 0]
}
