//! Every function that is lent a table.

use crate::{numbers, rooms};
use differential::calendar;
use differential::records;
use differential::samples;
use differential::table::Compared;
use eremothyn::Numbers;
use reference::random::Random;
use reference::table::Rules;

/// Every call with a table, under any numbers for its rules, with numbers of every size, and with buffers and rooms about as
/// long as is needed; and the same bytes as records.
pub fn every_call(random: &mut Random, table: &[u8], under: Numbers) {
    let compared = Compared::under(table, under);
    compared.everything(random);
    any_numbers(random, &compared);
    rooms::every_call(random, table, under, compared.check());
    records::Compared::of(table).decompile_into_all();
}

/// The same bytes under all rules.
pub fn every_call_under_all(random: &mut Random, table: &[u8]) {
    for rules in Rules::ALL {
        let under = samples::numbers(random, rules);
        every_call(random, table, under);
    }
}

/// Every call that takes a number, with numbers that are seldom there.
fn any_numbers(random: &mut Random, compared: &Compared) {
    let count = compared.check().unwrap_or(2);
    for _ in 0..4 {
        let entry = numbers::number(random, count);
        let minute = numbers::minute(random);
        let _ = compared.due(entry, minute);
        let _ = compared.next(entry, minute);
        let span = numbers::span(random);
        let _ = compared.firings(entry, span, random.below(6) as usize);
        let _ = compared.merged_firings(span, [(); 2].map(|_| random.below(6) as usize));
        let _ = compared.stdin_length(entry);
        let _ = compared.user_column(entry);
        let _ = compared.place(entry);
        let line = numbers::number(random, count);
        let _ = compared.setting(line);
        let _ = compared.next_setting(line);
        let _ = calendar::date(minute, random.below(10) as usize);
        let about = compared.needed(entry).map(|needed| {
            let length = needed as u64 + random.below(5);
            length.saturating_sub(2) as usize
        });
        let _ = compared.split_command(entry, about);
    }
    let mut about = |needed: Result<Vec<u8>, u64>| {
        let needed = needed.map_or(0, |bytes| bytes.len());
        (needed + random.below(5) as usize).saturating_sub(2)
    };
    let _ = compared.normal_form(about(compared.normal_text()));
    let _ = compared.compile(about(compared.records()));
}
