//! Ticket 2026-13: tables in the second dialect, and what is the same in both.

mod known;
mod names;
mod ranges;
mod refused;
mod same;

use differential::table::Compared;
use reference::table::samples::limits;
use reference::table::Dialect;

/// The place of the weekdays among the fields.
const WEEKDAYS: usize = 4;

/// A line with one field, and any minute of any day in the others.
fn with_field(which: usize, field: &str) -> String {
    let mut fields = ["*"; 5];
    fields[which] = field;
    format!("{} a\n", fields.join(" "))
}

/// The column of the field in that line.
fn column(which: usize) -> u64 {
    2 * which as u64 + 1
}

/// The sets of a field in a table of one line for each of some texts, a bit for a value; they are taken from the records, every
/// byte of which is compared.
fn sets(dialect: Dialect, which: usize, fields: &[String]) -> Result<Vec<u64>, u64> {
    let lines: String = fields
        .iter()
        .map(|field| with_field(which, field))
        .collect();
    let compared = Compared::under(lines.as_bytes(), dialect);
    let records = compared.records()?;
    assert_eq!(compared.compile(records.len()), Ok(records.len() as u64));
    let sets: Vec<u64> = entries(&records).map(|body| set(body, which)).collect();
    assert_eq!(sets.len(), fields.len());
    Ok(sets)
}

/// The set of one text, or its refusal.
fn set_of(dialect: Dialect, which: usize, field: &str) -> Result<u64, u64> {
    sets(dialect, which, &[field.to_string()]).map(|sets| sets[0])
}

/// The bodies of records that are all entries with a time.
fn entries(records: &[u8]) -> impl Iterator<Item = &[u8]> {
    let mut rest = records;
    std::iter::from_fn(move || {
        let length = 2 + usize::from(u16::from_le_bytes(*rest.first_chunk()?));
        let (one, behind) = rest.split_at(length);
        rest = behind;
        assert_eq!(one[2..4], [1, 0]);
        Some(&one[4..])
    })
}

/// The set of a field in such a body.
fn set(body: &[u8], which: usize) -> u64 {
    let (at, bytes) = [(0, 8), (8, 4), (12, 4), (16, 2), (18, 1)][which];
    let high_first = body[at..at + bytes].iter().rev();
    high_first.fold(0, |set, &byte| set << 8 | u64::from(byte))
}

/// The ticket's rule, by counting: a range goes on from its low end by steps, round the field, as long as its way to the high end
/// isn't passed. Sunday is 0.
fn counted(dialect: Dialect, which: usize, [low, high]: [u64; 2], step: u64) -> u64 {
    let (first, last) = limits(dialect)[which];
    let size = last - first + 1;
    let way = (high + size - low) % size;
    let values = (0..=way)
        .step_by(step as usize)
        .map(|on| first + (low - first + on) % size);
    let same = |value: u64| if which == WEEKDAYS { value % 7 } else { value };
    values.fold(0, |set, value| set | 1 << same(value))
}
