//! Ticket 2026-12, "the winter list": the firings after minute a and up to minute b. A table's list is each entry's own list,
//! put together and sorted; nothing is merged.

#[cfg(test)]
mod tests;

use super::calls::{Calls, NOT_ON_CALENDAR};
use super::{Kind, When, NEXT_OF_REBOOT};
use crate::answer::Filled;
use crate::calendar::LAST_MINUTE;

/// A minute, and the number of an entry that fires then.
pub type Firing = (u32, u16);

/// The firings that a run has room for, and whether there are more.
pub type Listed<T> = Result<(Vec<T>, bool), u64>;

impl Calls<'_> {
    /// An entry's firings after a and up to b, as many as fit.
    pub fn firings(&self, entry: u64, a: u64, b: u64, room: usize) -> Listed<u32> {
        let entry = self.entry(entry)?;
        on_calendar(a)?;
        on_calendar(b)?;
        if entry.when == When::Reboot {
            return Err(NEXT_OF_REBOOT);
        }
        let firings = entry.firings(a, b).take(room + 1);
        Ok(fitting(firings.map(|minute| minute as u32).collect(), room))
    }

    /// The firings of all entries, by minute and then by entry, as many as fit into the shorter of two runs.
    pub fn merged_firings(&self, a: u64, b: u64, rooms: [usize; 2]) -> Listed<Firing> {
        let table = self.good()?;
        on_calendar(a)?;
        on_calendar(b)?;
        let room = rooms[0].min(rooms[1]);
        let mut all: Vec<Firing> = Vec::new();
        for (number, entry) in table.entries.iter().enumerate() {
            // No entry has more of the first firings than there are.
            let firings = entry.firings(a, b).take(room + 1);
            all.extend(firings.map(|minute| (minute as u32, number as u16)));
        }
        all.sort();
        all.truncate(room + 1);
        Ok(fitting(all, room))
    }
}

/// The count and the word about more, as a call answers them.
pub fn filled<T>(listed: &Listed<T>) -> Result<Filled, u64> {
    listed
        .as_ref()
        .map_err(|&refusal| refusal)
        .map(|(list, more)| Filled {
            count: list.len() as u64,
            more: *more,
        })
}

/// What the program `crontab_firings` prints for a file's bytes, none where it can't be read, and two arguments.
pub fn printed(file: Option<&[u8]>, a: &[u8], b: &[u8]) -> String {
    let (Some(bytes), Some(a), Some(b)) = (file, number(a), number(b)) else {
        return "refused 0\n".to_string();
    };
    let whole = [usize::MAX - 1; 2];
    match Calls::of(bytes, Kind::User).merged_firings(a, b, whole) {
        Err(refusal) => format!("refused {refusal}\n"),
        Ok((list, _)) => {
            let lines = list
                .iter()
                .map(|(minute, entry)| format!("{minute} {entry}\n"));
            lines.collect()
        }
    }
}

/// Decimal digits, at least one, of a number of 64 bits.
fn number(text: &[u8]) -> Option<u64> {
    if text.is_empty() || !text.iter().all(u8::is_ascii_digit) {
        return None;
    }
    let text = std::str::from_utf8(text).ok()?;
    text.parse().ok()
}

fn on_calendar(minute: u64) -> Result<(), u64> {
    match minute <= LAST_MINUTE {
        true => Ok(()),
        false => Err(NOT_ON_CALENDAR),
    }
}

/// A list cut to what fits, and whether it was cut.
fn fitting<T>(mut list: Vec<T>, room: usize) -> (Vec<T>, bool) {
    let more = list.len() > room;
    list.truncate(room);
    (list, more)
}
