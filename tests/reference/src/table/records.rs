//! Ticket 2026-08: a user table as records, and the text that records mean. What a body may be isn't known here: a line is
//! guessed from it, that line is read and compiled, and the record is good if the same bytes come out.

#[cfg(test)]
mod tests;

pub mod known;
pub mod samples;

use super::normal::{item, laid, meaning_of, text, within_limits, Item};
use super::offset::CRON_TZ;
use super::{is_control, Dialect, When, ENTRIES, TOO_MANY_ENTRIES};
use crate::answer::Answer;
use crate::schedule::Schedule;

const CUT: u64 = 22;
const UNKNOWN: u64 = 23;
const NO_LINE: u64 = 24;

const TIMED: u16 = 1;
const REBOOT: u16 = 2;
const SETTING: u16 = 3;
const OFFSET: u16 = 4;
const SKIPPED: u16 = 32_768;

/// The number of a bad record, from 1, and why it is refused.
#[derive(Clone, Copy, Debug, PartialEq, Eq)]
struct BadRecord {
    record: u64,
    refusal: u64,
}

/// Writes a user table's records to the front of a buffer, and answers their length.
pub fn compile(table: &[u8], buffer: &mut [u8]) -> Answer {
    laid(&compiled(table)?, buffer)
}

/// Writes the normal text that records mean to the front of a buffer, and answers its length.
pub fn decompile(records: &[u8], buffer: &mut [u8]) -> Answer {
    laid(&decompiled(records)?, buffer)
}

/// The number of the first bad record, from 1; 0 where there is none.
pub fn record_fault(records: &[u8]) -> u64 {
    lines(records).err().map_or(0, |bad| bad.record)
}

/// A user table's records, if its normal text passes no limit; the table is read in the first dialect.
pub fn compiled(table: &[u8]) -> Result<Vec<u8>, u64> {
    compiled_of(table, Dialect::Rising)
}

/// The same of a table in any dialect.
pub fn compiled_of(table: &[u8], dialect: Dialect) -> Result<Vec<u8>, u64> {
    let items = meaning_of(table, dialect).map_err(|fault| fault.number)?;
    within_limits(text(&items))?;
    Ok(items.iter().flat_map(record).collect())
}

/// The normal text that records mean, if it passes no limit.
pub fn decompiled(records: &[u8]) -> Result<Vec<u8>, u64> {
    let lines = lines(records).map_err(|bad| bad.refusal)?;
    let is_entry = |line: &&Vec<u8>| matches!(item(line), Some(Item::Entry { .. }));
    if lines.iter().filter(is_entry).count() > ENTRIES {
        return Err(TOO_MANY_ENTRIES);
    }
    let ended = lines.iter().map(|line| [line, &b"\n"[..]].concat());
    within_limits(ended.flatten().collect())
}

/// The normal line of each record that isn't skipped, however long.
fn lines(records: &[u8]) -> Result<Vec<Vec<u8>>, BadRecord> {
    let mut lines = Vec::new();
    let mut left = records;
    let mut number = 0;
    while !left.is_empty() {
        number += 1;
        let bad = |refusal| BadRecord {
            record: number,
            refusal,
        };
        let (one, rest) = first(left).ok_or(bad(CUT))?;
        lines.extend(line(one).map_err(bad)?);
        left = rest;
    }
    Ok(lines)
}

/// The first record, and what stands behind it; none where it is cut short.
fn first(records: &[u8]) -> Option<(&[u8], &[u8])> {
    let length = usize::from(number(records)?);
    if length < 2 {
        return None;
    }
    records.split_at_checked(2 + length)
}

/// The number in the first two bytes.
fn number(bytes: &[u8]) -> Option<u16> {
    let [low, high] = *bytes.first_chunk()?;
    Some(u16::from(low) + 256 * u16::from(high))
}

/// The normal line of a whole record; none if it is skipped.
fn line(whole: &[u8]) -> Result<Option<Vec<u8>>, u64> {
    let kind = number(&whole[2..]).expect("a kind");
    let body = &whole[4..];
    let guess = match kind {
        SKIPPED.. => return Ok(None),
        TIMED => timed(body),
        REBOOT => Some(Item::Entry {
            when: When::Reboot,
            command: body,
        }),
        SETTING | OFFSET => setting(body),
        _ => return Err(UNKNOWN),
    };
    let means_it = |line: &Vec<u8>| {
        let is_queue = !line.iter().any(|&byte| is_control(byte));
        is_queue && item(line).is_some_and(|read| record(&read) == whole)
    };
    let line = guess.and_then(|guess| guess.written()).filter(means_it);
    line.map(Some).ok_or(NO_LINE)
}

/// What a body of kind 1 may mean.
fn timed(body: &[u8]) -> Option<Item<'_>> {
    let (minutes, rest) = body.split_first_chunk()?;
    let (hours, rest) = rest.split_first_chunk()?;
    let (days, rest) = rest.split_first_chunk()?;
    let (months, rest) = rest.split_first_chunk()?;
    let ([weekdays, flags], command) = rest.split_first_chunk()?;
    let schedule = Schedule {
        minutes: u64::from_le_bytes(*minutes),
        hours: u32::from_le_bytes(*hours),
        days: u32::from_le_bytes(*days),
        months: u16::from_le_bytes(*months),
        weekdays: *weekdays,
        stars: [0, 1, 2, 3, 4].map(|bit| flags >> bit & 1 == 1),
    };
    Some(Item::Entry {
        when: When::Times(schedule),
        command,
    })
}

/// What a body of kind 3 or 4 may mean.
fn setting(body: &[u8]) -> Option<Item<'_>> {
    let length = number(body)?;
    let (name, value) = body[2..].split_at_checked(length.into())?;
    Some(Item::Setting { name, value })
}

/// The record of an item, whatever its length: the two bytes hold its last 16 bits.
fn record(item: &Item) -> Vec<u8> {
    let (kind, body) = match *item {
        Item::Entry { when, command } => match when {
            When::Times(schedule) => (TIMED, [&sets(&schedule)[..], command].concat()),
            When::Reboot => (REBOOT, command.to_vec()),
        },
        Item::Setting { name, value } => {
            let kind = if name == CRON_TZ { OFFSET } else { SETTING };
            (kind, [&word(name.len()), name, value].concat())
        }
    };
    [&word(2 + body.len())[..], &kind.to_le_bytes(), &body].concat()
}

fn word(number: usize) -> [u8; 2] {
    (number as u16).to_le_bytes()
}

/// Byte by byte: the sets, bit n for value n, and the flags.
fn sets(schedule: &Schedule) -> Vec<u8> {
    let widths = [8, 4, 4, 2, 1];
    let numbers = schedule.numbers();
    let set = |field: usize| (0..widths[field]).map(move |at| (numbers[field] >> (8 * at)) as u8);
    let stars = schedule.stars.iter().rev();
    let flags = stars.fold(0, |flags, &star| 2 * flags + u8::from(star));
    (0..5).flat_map(set).chain([flags]).collect()
}
