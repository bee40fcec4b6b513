//! A queue that goes on with a changed table. The entries of a table fall into groups that mean the same, in file order. A queued
//! entry is looked up in the new table's group: at its own place of the old group, or at the end of a shorter one.

use super::{Queue, NO_LINE};
use crate::answer::Answer;
use crate::table::{Entry, Table, When};

/// Time and offset, or `@reboot`; user column and command.
#[derive(PartialEq)]
struct Meaning<'a> {
    time: Option<(When, i64)>,
    column: [Option<&'a [u8]>; 3],
    command: &'a [u8],
}

fn meaning<'a>(table: &Table<'a>, entry: &Entry<'a>) -> Meaning<'a> {
    let column = entry.column.parts();
    Meaning {
        time: match entry.when {
            When::Reboot => None,
            timed => Some((timed, entry.offset)),
        },
        column: column.map(|part| part.map(|part| part.of(table.bytes))),
        command: entry.command,
    }
}

/// The numbers of a table's entries of one meaning.
fn group(table: &Table, wanted: &Meaning) -> Vec<u64> {
    let entries = table.entries.iter().zip(0..);
    entries
        .filter(|(entry, _)| meaning(table, entry) == *wanted)
        .map(|(_, number)| number)
        .collect()
}

/// What an entry of the old table is in the new one.
fn successor(old: &Table, new: &Table, entry: u64) -> Option<u64> {
    let wanted = meaning(old, &old.entries[entry as usize]);
    let place = group(old, &wanted).iter().position(|&one| one == entry)?;
    let candidates = group(new, &wanted);
    candidates.get(place).or(candidates.last()).copied()
}

impl Queue {
    /// Goes on with a new table, and answers how many are queued.
    pub fn reload(&mut self, old: &Table, new: &Table) -> Answer {
        if !self.is_line_of(old) {
            return Err(NO_LINE);
        }
        let mut queued = Vec::new();
        for &entry in &self.waiting {
            match successor(old, new, entry) {
                Some(next) if !queued.contains(&next) => queued.push(next),
                _ => {}
            }
        }
        self.waiting = queued;
        Ok(self.waiting.len() as u64)
    }
}
