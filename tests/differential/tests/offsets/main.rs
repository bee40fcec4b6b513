//! Ticket 2026-09: entries by a local clock, against the reference program and against what follows from the ticket's words.

mod firings;
mod line;
mod records;
mod refused;

use reference::calendar::LAST_MINUTE;
use reference::table::offset::samples::OFFSETS;

/// Minutes in UTC about the ends of the calendar, of UTC's and of every local one; some are off it.
fn minutes() -> Vec<u64> {
    let mut minutes = vec![1_439, 1_440, 1_441, 15_863_040, u64::MAX];
    for offset in OFFSETS {
        let far = offset.unsigned_abs();
        for near in far.saturating_sub(1)..=far + 1 {
            minutes.extend([near, LAST_MINUTE - near]);
        }
    }
    minutes.extend([LAST_MINUTE + 1, LAST_MINUTE + 720, LAST_MINUTE + 721]);
    minutes.sort();
    minutes.dedup();
    minutes
}

/// The first and the last minute in UTC that are on the calendar there and by a clock so far ahead.
fn ends(offset: i64) -> [u64; 2] {
    let far = offset.unsigned_abs();
    match offset < 0 {
        true => [far, LAST_MINUTE],
        false => [0, LAST_MINUTE - far],
    }
}
