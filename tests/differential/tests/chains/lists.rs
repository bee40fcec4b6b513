//! Chains against the lists of ticket 2026-12: an entry's own, and its part of the merged one.

use crate::{days, dense, minutes_of, DAY};
use eremothyn::Table;
use reference::calendar::LAST_MINUTE;
use reference::random::Random;

/// An entry's list by the library; none for one at boot alone.
fn listed(table: Table, entry: u64, span: [u64; 2]) -> Vec<u64> {
    let mut run = vec![0; (span[1] - span[0]) as usize];
    match table.firings(entry, span, &mut run[..]) {
        Ok(filled) => {
            assert!(!filled.more);
            let list = &run[..filled.count as usize];
            list.iter().map(|&minute| minute.into()).collect()
        }
        Err(refusal) => {
            assert_eq!(refusal, 15);
            Vec::new()
        }
    }
}

/// Each entry's part of the merged list.
fn merged(table: Table, entries: u64, span: [u64; 2]) -> Vec<Vec<u64>> {
    let most = ((span[1] - span[0]) * entries) as usize;
    let (mut minutes, mut numbers) = (vec![0; most], vec![0; most]);
    let filled = table.merged_firings(span, &mut minutes[..], &mut numbers[..]);
    let filled = filled.expect("a list");
    assert!(!filled.more);
    let mut parts = vec![Vec::new(); entries as usize];
    for at in 0..filled.count as usize {
        parts[usize::from(numbers[at])].push(minutes[at].into());
    }
    parts
}

fn chains_are_the_lists(table: Table, span: [u64; 2]) -> usize {
    let entries = table.check().expect("a good table");
    let parts = merged(table, entries, span);
    let mut firings = 0;
    for (entry, part) in (0..).zip(parts) {
        let chain = minutes_of(table, entry, span);
        assert_eq!(chain, listed(table, entry, span), "entry {entry}, {span:?}");
        assert_eq!(chain, part, "entry {entry}, {span:?}");
        firings += chain.len();
    }
    firings
}

#[test]
fn chains_are_the_winter_lists() {
    let mut random = Random::seeded();
    let mut firings = 0;
    for _ in 0..500 {
        let (bytes, numbers) = dense(&mut random);
        println!("{} {numbers:?}", bytes.escape_ascii());
        let table = Table::of(&bytes).under(numbers);
        firings += chains_are_the_lists(table, days(&mut random, 4));
    }
    assert!(firings > 100_000, "{firings} firings");
}

/// From the first minute to the refusal: all of the calendar, of entries that seldom fire.
#[test]
fn whole_chains() {
    const YEARS: u64 = 400 * 366 * DAY;
    for table in [
        "0 0 29 2 * a\n",
        "CRON_TZ=-12:00\n0 12 1 1 * a\n",
        "CRON_TZ=+14:00\n59 23 31 12 * a\n0 0 29 2 */7 b\n@reboot c\n0 0 30 2 * d\n",
    ] {
        let table = Table::of(table.as_bytes());
        for entry in 0..table.check().expect("a good table") {
            for start in [0, YEARS, LAST_MINUTE - YEARS, LAST_MINUTE] {
                let whole = [start, LAST_MINUTE];
                let chain = minutes_of(table, entry, whole);
                let mut run = vec![0; chain.len() + 1];
                let count = match table.firings(entry, whole, &mut run[..]) {
                    Ok(filled) => filled.count as usize,
                    Err(refusal) => {
                        assert_eq!(refusal, 15);
                        0
                    }
                };
                let list: Vec<u64> = run[..count].iter().map(|&minute| minute.into()).collect();
                assert_eq!(chain, list);
            }
        }
    }
}
