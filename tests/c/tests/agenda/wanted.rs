//! The agenda that the reference program wants of a table. It has no words: those are told elsewhere.

use crate::parsed::{squeezed, Agenda};
use c::shown::{clock, firings, job, minute_text, Span};
use reference::table::{Entry, Table, When};

/// Whether an entry has more than four times a day.
pub fn is_often(entry: &Entry) -> bool {
    match entry.when {
        When::Reboot => false,
        When::Times(times) => times.minutes.count_ones() * times.hours.count_ones() > 4,
    }
}

fn other(table: &Table, number: usize, last: u64, is_local: bool) -> (String, String, String) {
    let entry = &table.entries[number];
    let job = squeezed(&job(table, entry));
    match entry.next_after(last) {
        Ok(next) if is_local => (minute_text(next), clock(table, number, next), job),
        Ok(next) => (minute_text(next), String::new(), job),
        Err(16) => ("never fires".to_string(), String::new(), job),
        Err(_) => ("fires no more".to_string(), String::new(), job),
    }
}

/// The days of a span of which none is in a list of minutes, and all of them.
fn left_out(minutes: &[u64], [from, to]: Span) -> Option<[u64; 2]> {
    let mut days: Vec<u64> = minutes.iter().map(|minute| minute / 1440).collect();
    days.dedup();
    let all = to / 1440 - from / 1440 + 1;
    let left = all - days.len() as u64;
    (left > 0 && !days.is_empty()).then_some([left, all])
}

/// The agenda, with no words in its list of what is often.
pub fn wanted(table: &Table, span: Span, is_local: bool) -> Agenda {
    let mut agenda = Agenda::default();
    let mut rare = Vec::new();
    for (number, entry) in table.entries.iter().enumerate() {
        let minutes: Vec<u64> = firings(entry, span).collect();
        let job = squeezed(&job(table, entry));
        match entry.when {
            When::Reboot => agenda.boot.push(job),
            _ if minutes.is_empty() => agenda.others.push(other(table, number, span[1], is_local)),
            _ if is_often(entry) => agenda
                .often
                .push((String::new(), minutes.len() as u64, job)),
            _ => rare.extend(minutes.iter().map(|&minute| (minute, number))),
        }
    }
    rare.sort();
    for &(minute, number) in &rare {
        let clock = match is_local {
            true => clock(table, number, minute),
            false => String::new(),
        };
        let job = squeezed(&job(table, &table.entries[number]));
        agenda.firings.push((minute, clock, job));
    }
    let minutes: Vec<u64> = rare.iter().map(|(minute, _)| *minute).collect();
    agenda.left_out = left_out(&minutes, span);
    agenda
}
