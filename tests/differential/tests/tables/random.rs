//! Random tables of both kinds, in both dialects: good ones, ones with a bad line, and large ones.

use differential::samples::{any_rules, ended, numbers};
use differential::table::Compared;
use reference::random::Random;
use reference::table::calls::Calls;
use reference::table::{samples, Rules, ENTRIES, TABLE_BYTES};

const SAMPLES: usize = 8_000;

#[test]
fn good_tables() {
    let mut random = Random::seeded();
    for rules in Rules::ALL.repeat(SAMPLES) {
        let lines = random.below(6);
        let table = samples::table(&mut random, rules, lines);
        let compared = Compared::under(&table, numbers(&mut random, rules));
        assert_eq!(compared.fault(), None);
        compared.everything(&mut random);
        // The same bytes read under any rules.
        let other = any_rules(&mut random);
        Compared::under(&table, numbers(&mut random, other)).everything(&mut random);
    }
}

/// 26, at the last line and behind its last byte; of a table that has another fault, that one.
#[test]
fn cut_tables() {
    let mut random = Random::seeded();
    for rules in Rules::ALL.repeat(SAMPLES) {
        let lines = 1 + random.below(5);
        let table = samples::cut_table(&mut random, rules, lines);
        let last = table.rsplit(|&byte| byte == b'\n').next();
        let column = last.map_or(0, <[u8]>::len) as u64 + 1;
        let number = numbers(&mut random, rules);
        let compared = Compared::under(&table, number);
        assert_eq!(compared.fault(), Some([26, lines, column]));
        compared.everything(&mut random);
        // Cut anywhere else.
        let length = random.below(table.len() as u64) as usize;
        Compared::under(&table[..length], number).everything(&mut random);
    }
}

#[test]
fn tables_with_one_bad_line() {
    let mut random = Random::seeded();
    for rules in Rules::ALL.repeat(SAMPLES) {
        let mut table = Vec::new();
        let at = random.below(4);
        for _ in 0..at {
            table.extend(samples::line(&mut random, rules));
            table.push(b'\n');
        }
        let (line, number, column) = samples::bad_line(&mut random, rules);
        table.extend(line);
        for _ in 0..random.below(3) {
            table.push(b'\n');
            table.extend(samples::line(&mut random, rules));
        }
        let compared = Compared::under(&table, numbers(&mut random, rules));
        assert_eq!(compared.fault(), Some([number, at + 1, column]));
        compared.everything(&mut random);
    }
}

/// Tables about as large as may be.
#[test]
fn large_tables() {
    let mut random = Random::seeded();
    for _ in 0..300 {
        let rules = any_rules(&mut random);
        let number = numbers(&mut random, rules);
        let mut table = Vec::new();
        let mut entries = 0;
        let most = ENTRIES as u64 - 2 + random.below(4);
        let length = match random.below(3) {
            0 => TABLE_BYTES,
            _ => TABLE_BYTES - 384 + random.below(500) as usize,
        };
        while table.len() < length {
            let line = samples::line(&mut random, rules);
            let is_entry = Calls::of(&ended(&line), rules).check() == Ok(1);
            if is_entry && entries == most {
                table.extend(b"# no entry\n");
                continue;
            }
            entries += u64::from(is_entry);
            table.extend(line);
            table.push(b'\n');
        }
        table.truncate(length);
        Compared::under(&table, number).everything(&mut random);
    }
}
