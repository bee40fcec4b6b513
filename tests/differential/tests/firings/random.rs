//! Random tables of both kinds.

use differential::samples::{any_rules, busy_table, numbers};
use differential::spans::{any, near};
use differential::table::Compared;
use reference::random::Random;
use reference::table::{samples, ENTRIES};

#[test]
fn small_tables() {
    let mut random = Random::seeded();
    let mut firings = 0;
    for _ in 0..4_000 {
        let rules = any_rules(&mut random);
        let lines = random.below(6);
        let table = samples::table(&mut random, rules, lines);
        let compared = Compared::under(&table, numbers(&mut random, rules));
        let span = near(&mut random);
        firings += compared.merged_list(span, 100).len();
        compared.merged_firings_into_all(span);
        for entry in 0..compared.check().unwrap_or(1) {
            compared.firings_into_all(entry, near(&mut random));
        }
    }
    assert!(firings > 4_000, "{firings} firings");
}

/// Entries that fire often, at one minute many of them.
#[test]
fn busy_tables() {
    let mut random = Random::seeded();
    for _ in 0..300 {
        let rules = any_rules(&mut random);
        let entries = random.below(60);
        let table = busy_table(&mut random, rules, entries);
        let compared = Compared::under(&table, numbers(&mut random, rules));
        let span = near(&mut random);
        compared.merged_firings_into_all(span);
        let rooms = [(); 2].map(|_| random.below(2_000) as usize);
        let _ = compared.merged_firings(span, rooms);
        if entries > 0 {
            compared.firings_into_all(random.below(entries), span);
        }
    }
}

/// As many entries as may be.
#[test]
fn full_tables() {
    let mut random = Random::seeded();
    for _ in 0..6 {
        let rules = any_rules(&mut random);
        let table = busy_table(&mut random, rules, ENTRIES as u64);
        let compared = Compared::under(&table, rules);
        assert_eq!(compared.check(), Ok(ENTRIES as u64));
        for _ in 0..10 {
            let span = near(&mut random);
            for room in [1, 100, 511, 512, 513, 5_000] {
                let _ = compared.merged_firings(span, [room, room]);
            }
        }
    }
}

/// Spans of years and centuries.
#[test]
fn long_spans() {
    let mut random = Random::seeded();
    for _ in 0..150 {
        let rules = any_rules(&mut random);
        let table = samples::table(&mut random, rules, 3);
        let compared = Compared::under(&table, rules);
        let span = any(&mut random);
        let room = random.below(400) as usize;
        let _ = compared.merged_firings(span, [room, room]);
        for entry in 0..compared.check().unwrap_or(1) {
            let _ = compared.firings(entry, span, room);
        }
    }
}
