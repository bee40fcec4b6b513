//! Normal texts and records written to buffers of every length.

use crate::bytes;
use differential::records;
use differential::table::Compared;
use reference::random::Random;
use reference::table::normal::samples;
use reference::table::{Dialect, LINE_BYTES, TABLE_BYTES};

/// A buffer of every length up to so many beyond what is needed, from 0 or from as much before it: for the text, for the
/// records, and for the text that these mean.
fn write_into_every(table: &[u8], before: usize, beyond: usize) {
    let compared = Compared::of(table);
    let records = compared.records().unwrap_or_default();
    let back = records::Compared::of(&records);
    let about = |needed: usize| needed.saturating_sub(before)..=needed + beyond;
    for length in about(compared.normal_text().map_or(0, |text| text.len())) {
        let _ = compared.normal_form(length);
        let _ = back.decompile(length);
    }
    for length in about(records.len()) {
        let _ = compared.compile(length);
    }
}

#[test]
fn small_tables_into_all_buffers() {
    let mut random = Random::seeded();
    for _ in 0..2_000 {
        let lines = random.below(4);
        let table = samples::table(&mut random, lines);
        write_into_every(&table, table.len() + 400, 3);
    }
}

/// Good tables, damaged ones, and any bytes: a buffer of any length changes only if the table is taken.
#[test]
fn tables_of_every_sort_into_any_buffers() {
    let mut random = Random::seeded();
    for _ in 0..40_000 {
        let dialect = random.pick(&Dialect::BOTH);
        let table = bytes::table(&mut random, dialect.into());
        let compared = Compared::under(&table, dialect);
        for _ in 0..4 {
            let length = random.below(2 * table.len() as u64 + 3);
            let _ = compared.normal_form(length as usize);
            let _ = compared.compile(length as usize);
        }
        compared.normal_form_into_all();
        compared.compile_into_all();
    }
}

/// Texts about pages, about the longest, and longer.
#[test]
fn long_tables_into_buffers_about_the_needed_length() {
    let mut random = Random::seeded();
    let pages = (4_096..TABLE_BYTES).step_by(4_096);
    let lengths = pages.chain([TABLE_BYTES]);
    for length in lengths.flat_map(|length| length - 1..=length + 1) {
        for _ in 0..10 {
            let table = samples::table_written_in(&mut random, length);
            write_into_every(&table, 2, 2);
        }
    }
}

/// Lines about the limit, before and behind which there are others.
#[test]
fn long_lines_into_buffers_about_the_needed_length() {
    let mut random = Random::seeded();
    for _ in 0..500 {
        let length = LINE_BYTES - 2 + random.below(5) as usize;
        let Some(line) = samples::written_in(&mut random, length) else {
            continue;
        };
        let [before, behind] = [(); 2].map(|_| samples::table(&mut random, 2));
        let table = [&before[..], &line, &behind].join(&b'\n');
        write_into_every(&table, 2, 2);
    }
}
