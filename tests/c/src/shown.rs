//! What people are shown of a table's entries, by the reference program.

use reference::calendar::date_of;
use reference::command::split;
use reference::schedule::Schedule;
use reference::table::{Dialect, Entry, Kind, Part, Rules, Table};

/// The minutes from one on and up to another, both of the span.
pub type Span = [u64; 2];

/// The options that say how a table is read.
pub fn reading(rules: Rules) -> Vec<&'static str> {
    let kind: &[&str] = match rules.kind {
        Kind::User => &[],
        Kind::System => &["--system"],
    };
    let dialect: &[&str] = match rules.dialect {
        Dialect::Rising => &[],
        Dialect::Wrapping => &["--dialect", "wrapping"],
    };
    [kind, dialect].concat()
}

/// A date as it is typed.
pub fn typed(minute: u64) -> String {
    let date = date_of(minute).expect("a minute of the calendar");
    let [year, month, day, hour, minute, _] = date.parts();
    format!("{year:04}-{month:02}-{day:02}T{hour:02}:{minute:02}")
}

/// All firings in a span. The first minute is after no other.
pub fn firings(entry: &Entry, [from, to]: Span) -> impl Iterator<Item = u64> {
    let first = (from == 0 && entry.matches(0)).then_some(0);
    let others = entry.firings(from.saturating_sub(1), to);
    first.into_iter().chain(others)
}

/// When a schedule fires: its minutes, hours, days, months and weekdays, and whether a day may be in either of the day sets, and
/// needn't be in both. Where it may, and one of them has every day, every day is meant.
pub fn times(schedule: &Schedule) -> ([u64; 5], bool) {
    const DAYS: u64 = (1 << 32) - 2;
    const WEEKDAYS: u64 = (1 << 7) - 1;
    let [minutes, hours, days, months, weekdays, stars] = schedule.numbers();
    match stars == 0 && (days == DAYS || weekdays == WEEKDAYS) {
        true => ([minutes, hours, DAYS, months, WEEKDAYS], false),
        false => ([minutes, hours, days, months, weekdays], stars == 0),
    }
}

/// Bytes as they are shown: a tab as a blank, and a question mark for what is no character, or none that is seen.
pub fn text(bytes: &[u8]) -> String {
    let mut text = String::new();
    for chunk in bytes.utf8_chunks() {
        let seen = |letter: char| match letter {
            '\t' => ' ',
            '\u{200b}'..='\u{200f}' | '\u{2028}'..='\u{202e}' => '?',
            '\u{2060}'..='\u{206f}' | '\u{feff}' => '?',
            letter if letter.is_control() => '?',
            letter => letter,
        };
        text.extend(chunk.valid().chars().map(seen));
        text.extend(chunk.invalid().iter().map(|_| '?'));
    }
    text
}

/// What an entry runs, with all its blanks.
pub fn job(table: &Table, entry: &Entry) -> String {
    let of = |part: Part| text(&table.bytes[part.offset..part.offset + part.length]);
    let [user, group, class] = entry.column.parts().map(|part| part.map(of));
    let mut job = user.unwrap_or_default();
    job += &group.map_or(String::new(), |group| format!(":{group}"));
    job += &class.map_or(String::new(), |class| format!("/{class}"));
    if !job.is_empty() {
        job += "  ";
    }
    let shell = split(entry.command).shell;
    match shell.is_empty() {
        true => job + "(an empty command)",
        false => job + &text(&shell),
    }
}

const WEEKDAYS: [&str; 7] = ["Sun", "Mon", "Tue", "Wed", "Thu", "Fri", "Sat"];

pub const MONTHS: [&str; 12] = [
    "January",
    "February",
    "March",
    "April",
    "May",
    "June",
    "July",
    "August",
    "September",
    "October",
    "November",
    "December",
];

/// A minute as 2026-11-15 Sun 21:30.
pub fn minute_text(minute: u64) -> String {
    let date = date_of(minute).expect("a minute of the calendar");
    let [year, month, day, hour, minute, weekday] = date.parts();
    let weekday = WEEKDAYS[weekday as usize];
    format!("{year:04}-{month:02}-{day:02} {weekday} {hour:02}:{minute:02}")
}

/// Whether an entry stands behind a CRON_TZ.
fn has_clock(table: &Table, number: usize) -> bool {
    let line = table.places[number].line;
    table.settings.iter().any(|(at, setting)| {
        let name = setting.name;
        *at < line && &table.bytes[name.offset..name.offset + name.length] == b"CRON_TZ"
    })
}

/// What the entry's clock shows at a minute, as [Mon 07:00 +12:45].
pub fn clock(table: &Table, number: usize, minute: u64) -> String {
    if !has_clock(table, number) {
        return String::new();
    }
    let offset = table.entries[number].offset;
    let local = minute.checked_add_signed(offset).expect("a minute");
    let (sign, ahead) = (if offset < 0 { '-' } else { '+' }, offset.abs());
    let text = minute_text(local);
    format!(
        "[{} {sign}{:02}:{:02}]",
        &text[11..],
        ahead / 60,
        ahead % 60
    )
}
