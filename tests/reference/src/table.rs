//! The paper's "A table, line by line": a table is cut into lines, a line into words, a field into elements, and an
//! element into numbers. The sets are gathered value by value, round the field where a range goes on from its first.

pub mod calls;
pub mod documents;
pub mod firings;
pub mod normal;
pub mod offset;
pub mod records;
mod rules;
pub mod samples;
mod user_column;

pub use rules::{Dialect, Rules};
pub use user_column::{Kind, UserColumn, NAME_BYTES};

use crate::answer::Answer;
use crate::schedule::Schedule;
use std::iter;

/// Limits of a table, of a line without its newline, and of a table's entries.
pub const TABLE_BYTES: usize = 49_152;
pub const LINE_BYTES: usize = 1_000;
pub const ENTRIES: usize = 512;

const TABLE_TOO_LONG: u64 = 1;
const LINE_TOO_LONG: u64 = 2;
const ZERO_BYTE: u64 = 3;
const TOO_FEW_FIELDS: u64 = 4;
const BAD_FORM: u64 = 5;
const OUT_OF_LIMITS: u64 = 6;
const HIGH_TO_LOW: u64 = 7;
const STEP_ZERO: u64 = 8;
const NO_COMMAND: u64 = 9;
const UNKNOWN_WORD: u64 = 10;
const BAD_SETTING: u64 = 11;
const TOO_MANY_ENTRIES: u64 = 12;
const NEXT_OF_REBOOT: u64 = 15;
const BAD_USER_COLUMN: u64 = 20;
const NO_LAST_NEWLINE: u64 = 26;
const CONTROL_BYTE: u64 = 27;

/// Why a table is refused, and where: line and column count from 1, and are 0 for the whole table.
#[derive(Clone, Copy, Debug, PartialEq, Eq)]
pub struct Fault {
    pub number: u64,
    pub line: u64,
    pub column: u64,
}

const TOO_LONG: Fault = Fault {
    number: TABLE_TOO_LONG,
    line: 0,
    column: 0,
};

#[derive(Clone, Debug, Default)]
pub struct Table<'a> {
    pub bytes: &'a [u8],
    pub entries: Vec<Entry<'a>>,
    /// Where each entry stands.
    pub places: Vec<Place>,
    /// Each with the number of its line, rising.
    pub settings: Vec<(u64, Setting)>,
}

/// An entry's line, from 1, and its command as it stands there.
#[derive(Clone, Copy, Debug, PartialEq, Eq)]
pub struct Place {
    pub line: u64,
    pub command: Part,
}

#[derive(Clone, Debug, PartialEq, Eq)]
pub struct Entry<'a> {
    pub when: When,
    /// How many minutes its clock is ahead of UTC.
    pub offset: i64,
    pub column: UserColumn,
    pub command: &'a [u8],
}

#[derive(Clone, Copy, Debug, PartialEq, Eq)]
pub enum When {
    /// `@reboot`, which no minute matches.
    Reboot,
    Times(Schedule),
}

#[derive(Clone, Copy, Debug, PartialEq, Eq)]
pub struct Setting {
    pub name: Part,
    pub value: Part,
}

/// Some bytes of the table, by their offset in it.
#[derive(Clone, Copy, Debug, PartialEq, Eq)]
pub struct Part {
    pub offset: usize,
    pub length: usize,
}

impl Table<'_> {
    /// The setting in a line.
    pub fn setting(&self, line: u64) -> Option<Setting> {
        let found = self.settings.iter().find(|(of, _)| *of == line);
        found.map(|(_, setting)| *setting)
    }
}

impl Entry<'_> {
    /// Whether its clock shows a minute of the calendar that matches, at a minute of the calendar in UTC.
    pub fn matches(&self, minute: u64) -> bool {
        let local = minute.checked_add_signed(self.offset);
        match self.when {
            When::Reboot => false,
            When::Times(schedule) => local.is_some_and(|local| schedule.matches(local)),
        }
    }

    /// The least such minute after a minute of the calendar, or 15, 16 or 17.
    pub fn next_after(&self, minute: u64) -> Answer {
        match self.when {
            When::Reboot => Err(NEXT_OF_REBOOT),
            When::Times(schedule) => schedule.next_under(self.offset, minute),
        }
    }

    /// All minutes at which it fires after a minute and up to another, rising; at boot isn't one of them.
    pub fn firings(&self, after: u64, last: u64) -> impl Iterator<Item = u64> {
        let times = match self.when {
            When::Reboot => None,
            When::Times(schedule) => Some(schedule),
        };
        let offset = self.offset;
        times
            .into_iter()
            .flat_map(move |schedule| schedule.all_under(offset, after, last))
    }
}

/// Reads a table, up to its first fault.
pub fn read(bytes: &[u8], rules: impl Into<Rules>) -> Result<Table<'_>, Fault> {
    let rules = rules.into();
    if bytes.len() > TABLE_BYTES {
        return Err(TOO_LONG);
    }
    let mut table = Table {
        bytes,
        ..Table::default()
    };
    let mut start = 0;
    let mut offset = 0;
    for (before, line) in lines(bytes).enumerate() {
        let number = before as u64 + 1;
        let fault = |Bad(number_of_fault, at)| Fault {
            number: number_of_fault,
            line: number,
            column: at as u64 + 1,
        };
        match meaning(line, rules).map_err(fault)? {
            Line::Ignored => {}
            Line::Setting(setting, given) => {
                table.settings.push((number, setting.later(start)));
                offset = given.unwrap_or(offset);
            }
            Line::Entry(_) if table.entries.len() == ENTRIES => {
                return Err(fault(Bad(TOO_MANY_ENTRIES, 0)));
            }
            Line::Entry(entry) => {
                table.places.push(place(number, start + line.len(), &entry));
                table.entries.push(Entry {
                    column: entry.column.later(start),
                    offset,
                    ..entry
                });
            }
        }
        start += line.len() + 1;
    }
    match unended(bytes) {
        Some(fault) => Err(fault),
        None => Ok(table),
    }
}

/// Where an entry stands, by its line and where that ends: its command ends there, too.
fn place(line: u64, end: usize, entry: &Entry) -> Place {
    let length = entry.command.len();
    Place {
        line,
        command: Part {
            offset: end - length,
            length,
        },
    }
}

/// What is wrong with a table's end: its last byte isn't a newline.
fn unended(bytes: &[u8]) -> Option<Fault> {
    if matches!(bytes.last(), None | Some(b'\n')) {
        return None;
    }
    let last = bytes.rsplit(|&byte| byte == b'\n').next()?;
    let before = &bytes[..bytes.len() - last.len()];
    Some(Fault {
        number: NO_LAST_NEWLINE,
        line: lines(before).count() as u64 + 1,
        column: last.len() as u64 + 1,
    })
}

/// A refusal's number, and how many bytes of the line stand before its place.
struct Bad(u64, usize);

/// Places are in the line.
enum Line<'a> {
    Ignored,
    /// With the offset from UTC that it gives to the entries after it, if any.
    Setting(Setting, Option<i64>),
    /// As if no setting stood before it.
    Entry(Entry<'a>),
}

fn lines(bytes: &[u8]) -> impl Iterator<Item = &[u8]> {
    bytes
        .split_inclusive(|&byte| byte == b'\n')
        .map(|line| line.strip_suffix(b"\n").unwrap_or(line))
}

fn meaning(line: &[u8], rules: Rules) -> Result<Line<'_>, Bad> {
    if line.len() > LINE_BYTES {
        return Err(Bad(LINE_TOO_LONG, LINE_BYTES));
    }
    if let Some(at) = line.iter().position(|&byte| byte == 0) {
        return Err(Bad(ZERO_BYTE, at));
    }
    if let Some(at) = line.iter().position(|&byte| is_control(byte)) {
        return Err(Bad(CONTROL_BYTE, at));
    }
    content(line, rules)
}

/// No line has these: the control characters of ASCII but for the tab. Byte 0 has a refusal of its own, and a newline ends
/// a line.
fn is_control(byte: u8) -> bool {
    byte.is_ascii_control() && byte != b'\t'
}

/// What a line says, whatever its length and its bytes.
fn content(line: &[u8], rules: Rules) -> Result<Line<'_>, Bad> {
    let mut words = Words { line, at: 0 };
    let Some(first) = words.next() else {
        return Ok(Line::Ignored);
    };
    let when = match first.text[0] {
        b'#' => return Ok(Line::Ignored),
        b'@' => at_word(rules.dialect, first)?,
        b'*' | b'0'..=b'9' => {
            let fields = [first].into_iter().chain(words.by_ref());
            When::Times(schedule(rules.dialect, line.len(), fields)?)
        }
        _ => {
            let setting = setting(line, first.at).ok_or(Bad(BAD_SETTING, first.at))?;
            let offset = offset::given(line, setting)?;
            return Ok(Line::Setting(setting, offset));
        }
    };
    let (column, command) = after_time(line, rules.kind, words)?;
    Ok(Line::Entry(Entry {
        when,
        offset: 0,
        column,
        command,
    }))
}

/// A run of bytes that aren't blank, and how many bytes of the line stand before it.
#[derive(Clone, Copy)]
struct Word<'a> {
    at: usize,
    text: &'a [u8],
}

/// The words of a line from a place on.
struct Words<'a> {
    line: &'a [u8],
    at: usize,
}

impl<'a> Iterator for Words<'a> {
    type Item = Word<'a>;

    fn next(&mut self) -> Option<Word<'a>> {
        let rest = &self.line[self.at..];
        let skipped = rest.iter().position(|&byte| !is_blank(byte))?;
        let text = &rest[skipped..];
        let length = text.iter().position(|&byte| is_blank(byte));
        let text = &text[..length.unwrap_or(text.len())];
        let at = self.at + skipped;
        self.at = at + text.len();
        Some(Word { at, text })
    }
}

fn is_blank(byte: u8) -> bool {
    byte == b' ' || byte == b'\t'
}

/// What follows the words of the time: in a system table a user column, and then the command, which starts with the next
/// word.
fn after_time<'a>(
    line: &'a [u8],
    kind: Kind,
    mut words: Words<'a>,
) -> Result<(UserColumn, &'a [u8]), Bad> {
    let mut next = || words.next().ok_or(Bad(NO_COMMAND, line.len()));
    let column = match kind {
        Kind::User => UserColumn::default(),
        Kind::System => {
            let word = next()?;
            UserColumn::of(word).ok_or(Bad(BAD_USER_COLUMN, word.at))?
        }
    };
    let command = next()?;
    Ok((column, &line[command.at..]))
}

/// What an `@` word stands for.
fn at_word(dialect: Dialect, word: Word) -> Result<When, Bad> {
    let fields = match word.text {
        b"@reboot" => return Ok(When::Reboot),
        b"@yearly" | b"@annually" => "0 0 1 1 *",
        b"@monthly" => "0 0 1 * *",
        b"@weekly" => "0 0 * * 0",
        b"@daily" | b"@midnight" => "0 0 * * *",
        b"@hourly" => "0 * * * *",
        _ => return Err(Bad(UNKNOWN_WORD, word.at)),
    };
    let line = fields.as_bytes();
    schedule(dialect, line.len(), Words { line, at: 0 }).map(When::Times)
}

/// A field as a dialect has it: its first and last value, and the names of its values from the first on.
struct Limits {
    first: u64,
    last: u64,
    names: &'static [&'static str],
    dialect: Dialect,
}

fn limits(dialect: Dialect) -> [Limits; 5] {
    let months: &[&str] = &[
        "jan", "feb", "mar", "apr", "may", "jun", "jul", "aug", "sep", "oct", "nov", "dec",
    ];
    let weekdays: &[&str] = &["sun", "mon", "tue", "wed", "thu", "fri", "sat"];
    let last_weekday = match dialect {
        Dialect::Rising => 7,
        Dialect::Wrapping => 6,
    };
    [
        (0, 59, &[][..]),
        (0, 23, &[]),
        (1, 31, &[]),
        (1, 12, months),
        (0, last_weekday, weekdays),
    ]
    .map(|(first, last, names)| Limits {
        first,
        last,
        names,
        dialect,
    })
}

/// The first five words as fields. A word too few is at the end of the line, whose length is given.
fn schedule<'a>(
    dialect: Dialect,
    length: usize,
    mut fields: impl Iterator<Item = Word<'a>>,
) -> Result<Schedule, Bad> {
    let mut sets = [0; 5];
    let mut stars = [false; 5];
    for (field, limits) in limits(dialect).iter().enumerate() {
        let word = fields.next().ok_or(Bad(TOO_FEW_FIELDS, length))?;
        sets[field] =
            set(limits, word.text).map_err(|Bad(number, at)| Bad(number, word.at + at))?;
        stars[field] = word.text.starts_with(b"*");
    }
    let [minutes, hours, days, months, weekdays] = sets;
    // Sunday is 0, also where it is written 7.
    let weekdays = weekdays & 0x7f | weekdays >> 7 & 1;
    Ok(Schedule {
        minutes,
        hours: hours as u32,
        days: days as u32,
        months: months as u16,
        weekdays: weekdays as u8,
        stars,
    })
}

/// The values of a field as bits. A bad form anywhere comes before the first bad element.
fn set(limits: &Limits, text: &[u8]) -> Result<u64, Bad> {
    if let Some(after_star) = text.strip_prefix(b"*") {
        let whole = Element {
            low: limits.first,
            high: limits.last,
            step: match after_star {
                [] => 1,
                [b'/', step @ ..] => number(step).ok_or(Bad(BAD_FORM, 0))?,
                _ => return Err(Bad(BAD_FORM, 0)),
            },
        };
        return whole.values(limits).map_err(|number| Bad(number, 0));
    }
    let mut answer = Ok(0);
    let mut at = 0;
    for part in text.split(|&byte| byte == b',') {
        let values = element(limits, part)
            .ok_or(Bad(BAD_FORM, 0))?
            .values(limits);
        answer = match (answer, values) {
            (Ok(set), Ok(more)) => Ok(set | more),
            (Ok(_), Err(number)) => Err(Bad(number, at)),
            (Err(bad), _) => Err(bad),
        };
        at += part.len() + 1;
    }
    answer
}

fn named(limits: &Limits, text: &[u8]) -> Option<u64> {
    let is_it = |name: &&str| name.as_bytes().eq_ignore_ascii_case(text);
    let place = limits.names.iter().position(is_it)?;
    Some(limits.first + place as u64)
}

/// `low-high/step`.
struct Element {
    low: u64,
    high: u64,
    step: u64,
}

/// An element of a list: `n`, `n-m` or `n-m/step`, where n and m may be names.
fn element(limits: &Limits, text: &[u8]) -> Option<Element> {
    match cut(text, b'-') {
        (low, None) => {
            let low = end(limits, low)?;
            Some(Element {
                low,
                high: low,
                step: 1,
            })
        }
        (low, Some(rest)) => {
            let (high, step) = cut(rest, b'/');
            Some(Element {
                low: end(limits, low)?,
                high: match ends_the_week(limits, low, high) {
                    true => limits.last,
                    false => end(limits, high)?,
                },
                step: step.map_or(Some(1), number)?,
            })
        }
    }
}

fn end(limits: &Limits, text: &[u8]) -> Option<u64> {
    number(text).or_else(|| named(limits, text))
}

/// Whether `sun` as the upper end of a range is the last day, and not the first: in the first dialect, where the lower end isn't
/// `sun`.
fn ends_the_week(limits: &Limits, low: &[u8], high: &[u8]) -> bool {
    limits.dialect == Dialect::Rising && names_sunday(limits, high) && !names_sunday(limits, low)
}

/// `sun`, in the field that has it.
fn names_sunday(limits: &Limits, text: &[u8]) -> bool {
    limits.names.first() == Some(&"sun") && named(limits, text) == Some(0)
}

impl Element {
    fn values(&self, limits: &Limits) -> Result<u64, u64> {
        let within = limits.first..=limits.last;
        if !within.contains(&self.low) || !within.contains(&self.high) {
            return Err(OUT_OF_LIMITS);
        }
        if self.low > self.high && limits.dialect == Dialect::Rising {
            return Err(HIGH_TO_LOW);
        }
        if self.step == 0 {
            return Err(STEP_ZERO);
        }
        let values = limits.walk(self.low, self.high).step_by(self.step as usize);
        Ok(values.fold(0, |set, value| set | 1 << value))
    }
}

impl Limits {
    /// The values of the field from one up to another, one by one; the first comes after the last.
    fn walk(&self, from: u64, to: u64) -> impl Iterator<Item = u64> + '_ {
        iter::successors(Some(from), move |&value| match value {
            _ if value == to => None,
            _ if value == self.last => Some(self.first),
            _ => Some(value + 1),
        })
    }
}

/// One to four digits.
fn number(text: &[u8]) -> Option<u64> {
    let good = (1..=4).contains(&text.len()) && text.iter().all(u8::is_ascii_digit);
    good.then(|| {
        text.iter()
            .fold(0, |value, digit| 10 * value + u64::from(digit - b'0'))
    })
}

/// What stands before the first such byte, and what after it, if there is one.
fn cut(text: &[u8], byte: u8) -> (&[u8], Option<&[u8]>) {
    match text.iter().position(|&other| other == byte) {
        Some(at) => (&text[..at], Some(&text[at + 1..])),
        None => (text, None),
    }
}

impl Part {
    /// The bytes, of the line or the table that the offset counts in.
    pub fn of(self, bytes: &[u8]) -> &[u8] {
        &bytes[self.offset..self.offset + self.length]
    }

    fn later(self, by: usize) -> Part {
        Part {
            offset: self.offset + by,
            ..self
        }
    }
}

impl Setting {
    fn later(self, by: usize) -> Setting {
        Setting {
            name: self.name.later(by),
            value: self.value.later(by),
        }
    }
}

/// The setting in a line whose first byte that isn't blank is at a place. Offsets are in the line.
fn setting(line: &[u8], at: usize) -> Option<Setting> {
    let name = match quoted(line, at)? {
        Some(name) => name,
        None => {
            let is_bare = |&byte: &u8| !is_blank(byte) && !matches!(byte, b'=' | b'"' | b'\'');
            let length = line[at..].iter().take_while(|byte| is_bare(byte)).count();
            Part { offset: at, length }
        }
    };
    if name.length == 0 {
        return None;
    }
    // A quoted name has a quote behind it.
    let after_name = name.offset + name.length + name.offset - at;
    let equals = past_blanks(line, after_name);
    if line.get(equals) != Some(&b'=') {
        return None;
    }
    let start = past_blanks(line, equals + 1);
    let value = match quoted(line, start)? {
        Some(value) => {
            let after_quote = value.offset + value.length + 1;
            if past_blanks(line, after_quote) < line.len() {
                return None;
            }
            value
        }
        None => {
            let trailing = line[start..]
                .iter()
                .rev()
                .take_while(|&&byte| is_blank(byte));
            Part {
                offset: start,
                length: line.len() - start - trailing.count(),
            }
        }
    };
    Some(Setting { name, value })
}

/// The first place from here on that isn't a blank; perhaps the line's end.
fn past_blanks(line: &[u8], at: usize) -> usize {
    at + line[at..]
        .iter()
        .take_while(|&&byte| is_blank(byte))
        .count()
}

/// What stands in quotes at a place: none where no quote starts there, and no answer at all where one doesn't end.
fn quoted(line: &[u8], at: usize) -> Option<Option<Part>> {
    match line.get(at) {
        Some(quote @ (b'"' | b'\'')) => {
            let inside = &line[at + 1..];
            let length = inside.iter().position(|byte| byte == quote)?;
            Some(Some(Part {
                offset: at + 1,
                length,
            }))
        }
        _ => Some(None),
    }
}

#[cfg(test)]
mod tests;
