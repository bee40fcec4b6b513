//! Ticket 2026-14, "the chain is the whole truth": next firing, asked again and again, against the lists, the announcements, the
//! minutes one by one and the slow engine; and 400 years later. The library's calls are compared with one another here, and with
//! the reference program.

mod lists;
mod minutes;
mod none;
mod shifts;
mod ticks;

use differential::samples::{any_rules, busy_table, numbers};
use eremothyn::{Numbers, Table};
use reference::calendar::LAST_MINUTE;
use reference::random::Random;
use reference::table::offset::samples as offsets;
use reference::table::samples;

const DAY: u64 = 1_440;

/// The minutes that are answered for an entry after a start, up to a last minute; and the refusal that ended them, if one did.
fn chain(table: Table, entry: u64, [start, last]: [u64; 2]) -> (Vec<u64>, Option<u64>) {
    let mut chain = Vec::new();
    let mut minute = start;
    loop {
        match table.next(entry, minute) {
            Ok(next) if next <= last => {
                assert!(next > minute, "entry {entry}: {next} after {minute}");
                chain.push(next);
                minute = next;
            }
            Ok(_) => return (chain, None),
            Err(refusal) => return (chain, Some(refusal)),
        }
    }
}

/// A chain's minutes. Up to the calendar's end it ends by a refusal, and before it only with the last of all firings.
fn minutes_of(table: Table, entry: u64, span: [u64; 2]) -> Vec<u64> {
    let (minutes, refusal) = chain(table, entry, span);
    if span[1] == LAST_MINUTE {
        assert!(refusal.is_some(), "entry {entry}, {span:?}");
    }
    if let Some(refusal) = refusal {
        assert!([15, 16, 17].contains(&refusal), "{refusal}");
        assert!(refusal == 17 || minutes.is_empty(), "{refusal}");
    }
    minutes
}

/// A table under some clock whose entries fire often, or one of any lines; and numbers that say how it is read.
fn dense(random: &mut Random) -> (Vec<u8>, Numbers) {
    let rules = any_rules(random);
    let clock = format!("{}\n", offsets::any_line(random)).into_bytes();
    let entries = 1 + random.below(6);
    let rest = match random.below(4) {
        0 => samples::table(random, rules, entries),
        _ => busy_table(random, rules, entries),
    };
    let table = match random.below(3) {
        0 => rest,
        _ => [clock, rest].concat(),
    };
    (table, numbers(random, rules))
}

/// Some days: of either end of the calendar, or any. The start is left out, the last minute isn't.
fn days(random: &mut Random, most: u64) -> [u64; 2] {
    let far = random.below(most * DAY + 1);
    match random.below(4) {
        0 => [0, far],
        1 => [LAST_MINUTE - far, LAST_MINUTE],
        2 => [far.min(720), far.min(720) + far],
        _ => {
            let start = random.below(LAST_MINUTE - far + 1);
            [start, start + far]
        }
    }
}
