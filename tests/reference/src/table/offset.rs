//! Ticket 2026-09: the setting `CRON_TZ`. No value is taken apart: the texts that are offsets are all written out, and a
//! value is looked up among them.

#[cfg(test)]
mod tests;

pub mod known;
pub mod samples;

use super::{past_blanks, Bad, Setting};
use std::collections::HashMap;
use std::sync::OnceLock;

pub const CRON_TZ: &[u8] = b"CRON_TZ";

/// The furthest offsets, in minutes.
pub const WEST: i64 = -12 * 60;
pub const EAST: i64 = 14 * 60;

const NO_OFFSET: u64 = 25;

/// The offset that a setting of a line gives; none if it has another name.
pub(super) fn given(line: &[u8], setting: Setting) -> Result<Option<i64>, Bad> {
    if setting.name.of(line) != CRON_TZ {
        return Ok(None);
    }
    match offsets().get(setting.value.of(line)) {
        Some(&offset) => Ok(Some(offset)),
        None => Err(Bad(NO_OFFSET, value_place(line, setting))),
    }
}

/// Where the value starts, with its quote if it has one.
fn value_place(line: &[u8], setting: Setting) -> usize {
    let name_end = setting.name.offset + setting.name.length;
    let between = line[name_end..].iter().take_while(|&&byte| byte != b'=');
    past_blanks(line, name_end + between.count() + 1)
}

/// An offset as a value, with a plus sign for none.
pub fn text(offset: i64) -> String {
    let sign = if offset < 0 { '-' } else { '+' };
    let minutes = offset.abs();
    format!("{sign}{:02}:{:02}", minutes / 60, minutes % 60)
}

/// Every text that is an offset.
fn offsets() -> &'static HashMap<Vec<u8>, i64> {
    static OFFSETS: OnceLock<HashMap<Vec<u8>, i64>> = OnceLock::new();
    OFFSETS.get_or_init(|| {
        let written = (WEST..=EAST).map(|offset| (text(offset).into_bytes(), offset));
        written.chain([(b"-00:00".to_vec(), 0)]).collect()
    })
}
