//! The paper's "The line of waiting jobs", as a list in memory, with the mark of ticket 2026-10. Fixed entries are asked
//! about minute by minute.

pub mod known;
mod reload;
pub mod room;

use crate::answer::Answer;
use crate::calendar::LAST_MINUTE;
use crate::table::{Entry, Table, When};
use std::ops::RangeInclusive;

const NOT_ON_CALENDAR: u64 = 14;
const NO_LINE: u64 = 28;

/// How far above the mark a minute may be that catches up; so far below it, one counts as a new clock.
const HOURS_3: u64 = 180;

/// The places of the minute and the hour among the five fields.
const MINUTE_FIELD: usize = 0;
const HOUR_FIELD: usize = 1;

/// The entries that wait, the front first, and the mark.
#[derive(Clone, Debug, Default, PartialEq, Eq)]
pub struct Queue {
    pub waiting: Vec<u64>,
    pub mark: Option<u64>,
}

/// The ticket's three cases of a minute that is announced.
enum Case {
    /// All entries are judged by the minute, and it becomes the mark.
    Anew,
    /// Fixed entries are judged by all of these, others by the last, which becomes the mark.
    CatchUp(RangeInclusive<u64>),
    /// Fixed entries don't join, others are judged by the minute, and the mark stays.
    Hold,
}

impl Case {
    fn of(mark: Option<u64>, minute: u64) -> Case {
        match mark {
            None => Case::Anew,
            Some(mark) if minute > mark + HOURS_3 || minute + HOURS_3 <= mark => Case::Anew,
            Some(mark) if minute > mark => Case::CatchUp(mark + 1..=minute),
            Some(_) => Case::Hold,
        }
    }
}

impl Queue {
    /// The fresh line of a table: its `@reboot` entries, and no mark.
    pub fn fresh(table: &Table) -> Queue {
        let is_reboot = |entry: &u64| table.entries[*entry as usize].when == When::Reboot;
        Queue {
            waiting: numbers(table).filter(is_reboot).collect(),
            mark: None,
        }
    }

    /// Whether this is a line of a table: it names only entries that the table has, and none twice, and its mark is on the
    /// calendar.
    pub fn is_line_of(&self, table: &Table) -> bool {
        let mut rising = self.waiting.clone();
        rising.sort();
        let twice = rising.windows(2).any(|pair| pair[0] == pair[1]);
        let known = rising.last().is_none_or(|&last| last < numbers(table).end);
        !twice && known && self.mark.is_none_or(|mark| mark <= LAST_MINUTE)
    }

    /// Announces a minute, and answers how many joined.
    pub fn tick(&mut self, table: &Table, minute: u64) -> Answer {
        if !self.is_line_of(table) {
            return Err(NO_LINE);
        }
        if minute > LAST_MINUTE {
            return Err(NOT_ON_CALENDAR);
        }
        let case = Case::of(self.mark, minute);
        let is_called = |entry: &Entry| match &case {
            Case::CatchUp(span) if is_fixed(entry) => {
                span.clone().any(|minute| entry.matches(minute))
            }
            Case::Hold if is_fixed(entry) => false,
            _ => entry.matches(minute),
        };
        let joins = |entry: &u64| {
            !self.waiting.contains(entry) && is_called(&table.entries[*entry as usize])
        };
        let joiners: Vec<u64> = numbers(table).filter(joins).collect();
        self.waiting.extend(&joiners);
        if !matches!(case, Case::Hold) {
            self.mark = Some(minute);
        }
        Ok(joiners.len() as u64)
    }

    /// Who stands at a place, 0 the front; none from the end on.
    pub fn entry(&self, table: &Table, place: u64) -> Result<Option<u64>, u64> {
        if !self.is_line_of(table) {
            return Err(NO_LINE);
        }
        let mut waiting = (0..).zip(&self.waiting);
        Ok(waiting
            .find(|&(at, _)| at == place)
            .map(|(_, &entry)| entry))
    }

    /// Requests an entry; none is "nothing waits".
    pub fn pop(&mut self, table: &Table) -> Result<Option<u64>, u64> {
        if !self.is_line_of(table) {
            return Err(NO_LINE);
        }
        if self.waiting.is_empty() {
            return Ok(None);
        }
        Ok(Some(self.waiting.remove(0)))
    }
}

/// Whether neither the minute nor the hour field begins with `*`.
fn is_fixed(entry: &Entry) -> bool {
    match entry.when {
        When::Reboot => false,
        When::Times(schedule) => !schedule.stars[MINUTE_FIELD] && !schedule.stars[HOUR_FIELD],
    }
}

fn numbers(table: &Table) -> std::ops::Range<u64> {
    0..table.entries.len() as u64
}

#[cfg(test)]
mod tests;
