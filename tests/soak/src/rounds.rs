//! A round: one table, line, list of firings, run of records or handful of dates, with every call about it.

use differential::edits::edited;
use differential::jumps::minute;
use differential::queue::{self, Case};
use differential::samples::{any_rules, busy_table, date, numbers};
use differential::{calendar, records, spans, table};
use reference::calendar::LAST_MINUTE;
use reference::random::Random;
use reference::schedule::samples::start;
use reference::table::records::samples::{damaged, good, with_later};
use reference::table::{read, samples, Rules};

pub fn round(random: &mut Random) {
    match random.below(8) {
        0..=2 => a_table(random),
        3 | 4 => a_line(random),
        5 => some_lists(random),
        6 => some_records(random),
        _ => some_dates(random),
    }
}

/// Few entries mostly, and now and then as many as there may be.
fn size(random: &mut Random) -> u64 {
    match random.below(40) {
        0 => 512,
        1..=3 => random.below(200),
        _ => random.below(14),
    }
}

/// A table, mostly good, else cut, damaged, or any bytes.
fn bytes(random: &mut Random, rules: Rules) -> Vec<u8> {
    let size = size(random);
    match random.below(8) {
        0 => samples::cut_table(random, rules, 1 + size),
        1 | 2 => {
            let good = samples::table(random, rules, size);
            samples::mutated(random, &good)
        }
        3 => samples::noise(random, 40 * size),
        _ => samples::table(random, rules, size),
    }
}

fn a_table(random: &mut Random) {
    let rules = any_rules(random);
    let bytes = bytes(random, rules);
    let numbers = numbers(random, rules);
    table::Compared::under(&bytes, numbers).everything(random);
    if let Err(fault) = read(&bytes, rules) {
        let room = samples::noise(random, 200);
        queue::refused(&bytes, numbers, fault.number, &room, start(random));
    }
}

/// A line that lives through jumps of the clock, requests, and reloads.
fn a_line(random: &mut Random) {
    let rules = any_rules(random);
    let numbers = numbers(random, rules);
    let size = size(random);
    let mut bytes = busy_table(random, rules, size);
    let room = 8 * 520 + 64;
    let mut line = queue::Compared::fresh(&Case::under(&bytes, numbers), room);
    let mut last = start(random).min(LAST_MINUTE);
    for _ in 0..1 + random.below(4) {
        let case = Case::under(&bytes, numbers);
        for _ in 0..random.below(if size > 100 { 20 } else { 200 }) {
            last = minute(random, &line, last);
            let _ = line.tick(&case, room, last);
            last = last.min(LAST_MINUTE);
            for _ in 0..random.below(3) {
                let _ = line.pop(&case, room);
            }
        }
        line.assert_waiting(&case);
        let changed = edited(random, rules, &bytes);
        let _ = line.reload(&case, &Case::under(&changed, numbers), room);
        bytes = changed;
    }
}

/// Firings over spans of any length, into runs that are long enough or not.
fn some_lists(random: &mut Random) {
    let rules = any_rules(random);
    let size = random.below(30);
    let bytes = busy_table(random, rules, size);
    let compared = table::Compared::under(&bytes, rules);
    for _ in 0..4 {
        let span = spans::near(random);
        compared.merged_firings_into_all(span);
        for entry in 0..compared.check().unwrap_or(0) {
            compared.firings_into_all(entry, span);
        }
    }
}

/// Records that are good, mixed with later ones, and damaged.
fn some_records(random: &mut Random) {
    let lines = random.below(30);
    let good = good(random, lines);
    let mixed = with_later(random, &good);
    records::Compared::of(&mixed).decompile_into_all();
    for _ in 0..20 {
        records::Compared::of(&damaged(random, mixed.clone())).decompile_into_all();
    }
}

fn some_dates(random: &mut Random) {
    for _ in 0..2_000 {
        let _ = calendar::date(start(random), random.below(9) as usize);
        let _ = calendar::minute_of(date(random));
    }
}
