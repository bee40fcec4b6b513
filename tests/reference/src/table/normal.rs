//! Ticket 2026-06: what a user table means, and the one text that says it. Nothing is known here of what has to be quoted
//! or of how a step comes to its values: the ways to write a name, a value or a field are tried in the ticket's order, and
//! the first that reads as what is meant is taken. They are read in the first dialect; a text reads the same in either.

#[cfg(test)]
mod tests;

pub mod samples;

use super::calls::BUFFER_TOO_SHORT;
use super::{content, lines, read, schedule, Dialect, Fault, Line, When, Words};
use super::{LINE_BYTES, TABLE_BYTES};
use crate::answer::Answer;
use crate::schedule::Schedule;
use std::collections::HashMap;
use std::iter;
use std::sync::OnceLock;

const TEXT_TOO_LONG: u64 = 21;

/// A setting or an entry, without its place.
#[derive(Clone, Copy, Debug, PartialEq, Eq)]
pub enum Item<'a> {
    Setting { name: &'a [u8], value: &'a [u8] },
    Entry { when: When, command: &'a [u8] },
}

/// The settings and entries of a user table as one sequence; it is read in the first dialect.
pub fn meaning(table: &[u8]) -> Result<Vec<Item<'_>>, Fault> {
    meaning_of(table, Dialect::Rising)
}

/// The same of a table in any dialect.
pub fn meaning_of(table: &[u8], dialect: Dialect) -> Result<Vec<Item<'_>>, Fault> {
    read(table, dialect)?;
    let item = |line| item_in(line, dialect);
    Ok(lines(table).filter_map(item).collect())
}

/// What a line means in the first dialect, whatever its length: nothing if it is ignored, or bad.
pub fn item(line: &[u8]) -> Option<Item<'_>> {
    item_in(line, Dialect::Rising)
}

fn item_in(line: &[u8], dialect: Dialect) -> Option<Item<'_>> {
    match content(line, dialect.into()) {
        Ok(Line::Setting(setting, _)) => Some(Item::Setting {
            name: setting.name.of(line),
            value: setting.value.of(line),
        }),
        Ok(Line::Entry(entry)) => Some(Item::Entry {
            when: entry.when,
            command: entry.command,
        }),
        Ok(Line::Ignored) | Err(_) => None,
    }
}

/// Writes a user table's normal text to the front of a buffer, and answers its length.
pub fn normal_form(table: &[u8], buffer: &mut [u8]) -> Answer {
    laid(&normal_text(table)?, buffer)
}

/// Lays a text at the front of a buffer.
pub fn laid(text: &[u8], buffer: &mut [u8]) -> Answer {
    let front = buffer.get_mut(..text.len()).ok_or(BUFFER_TOO_SHORT)?;
    front.copy_from_slice(text);
    Ok(text.len() as u64)
}

/// A user table's normal text, if no limit is passed; the table is read in the first dialect.
pub fn normal_text(table: &[u8]) -> Result<Vec<u8>, u64> {
    normal_text_of(table, Dialect::Rising)
}

/// The same of a table in any dialect.
pub fn normal_text_of(table: &[u8], dialect: Dialect) -> Result<Vec<u8>, u64> {
    let items = meaning_of(table, dialect).map_err(|fault| fault.number)?;
    within_limits(text(&items))
}

/// A text, if no limit is passed.
pub(super) fn within_limits(text: Vec<u8>) -> Result<Vec<u8>, u64> {
    let passes = |line: &[u8]| line.len() > LINE_BYTES;
    if text.len() > TABLE_BYTES || lines(&text).any(passes) {
        return Err(TEXT_TOO_LONG);
    }
    Ok(text)
}

/// A line for each item.
pub fn text(items: &[Item]) -> Vec<u8> {
    let lines = items.iter().map(|item| [&item.text()[..], b"\n"].concat());
    lines.flatten().collect()
}

impl Item<'_> {
    /// The normal line of an item that was read, without its newline.
    pub fn text(&self) -> Vec<u8> {
        self.written().expect("an item that was read")
    }

    /// The same of any item, if there is a way to write it.
    pub fn written(&self) -> Option<Vec<u8>> {
        Some(match *self {
            Item::Setting { name, value } => {
                [&name_text(name)?[..], b"=", &value_text(value)?].concat()
            }
            Item::Entry { when, command } => [time_text(when)?.as_bytes(), b" ", command].concat(),
        })
    }
}

/// With a value that is good for any name.
fn name_text(name: &[u8]) -> Option<Vec<u8>> {
    let value = b"+00:00";
    let meant = Some(Item::Setting { name, value });
    ways(name).find(|way| item(&[way, &b"="[..], value].concat()) == meant)
}

fn value_text(value: &[u8]) -> Option<Vec<u8>> {
    let meant = Some(Item::Setting { name: b"A", value });
    ways(value).find(|way| item(&[b"A=", &way[..]].concat()) == meant)
}

/// Bare, in double quotes, in single quotes.
fn ways(text: &[u8]) -> impl Iterator<Item = Vec<u8>> + '_ {
    let quotes: [&[u8]; 3] = [b"", b"\"", b"'"];
    quotes
        .into_iter()
        .map(move |quote| [quote, text, quote].concat())
}

fn time_text(when: When) -> Option<String> {
    let When::Times(schedule) = when else {
        return Some("@reboot".into());
    };
    let fields = (0..5).map(|which| field_text(&schedule, which));
    let fields: Option<Vec<String>> = fields.collect();
    Some(fields?.join(" "))
}

fn field_text(schedule: &Schedule, which: usize) -> Option<String> {
    let set = schedule.numbers()[which];
    if schedule.stars[which] {
        return stars(which).get(&set).cloned();
    }
    let numbers: Vec<String> = (0..64)
        .filter(|value| set >> value & 1 == 1)
        .map(|value| value.to_string())
        .collect();
    Some(numbers.join(","))
}

/// The sets that a field which begins with a star can have, each with the first text that gives it.
fn stars(which: usize) -> &'static HashMap<u64, String> {
    static STARS: OnceLock<[HashMap<u64, String>; 5]> = OnceLock::new();
    let of_field = |which| {
        let steps = (1..).map(|step| format!("*/{step}"));
        let texts = iter::once("*".into()).chain(steps);
        let mut first = HashMap::new();
        for (set, text) in texts.map_while(|text| Some((values(which, &text)?, text))) {
            first.entry(set).or_insert(text);
        }
        first
    };
    &STARS.get_or_init(|| [0, 1, 2, 3, 4].map(of_field))[which]
}

/// The values that a text gives as one of the five fields, if it is a field.
fn values(which: usize, text: &str) -> Option<u64> {
    let mut fields = ["1"; 5];
    fields[which] = text;
    let line = fields.join(" ");
    let words = Words {
        line: line.as_bytes(),
        at: 0,
    };
    let schedule = schedule(Dialect::Rising, line.len(), words).ok()?;
    Some(schedule.numbers()[which])
}
