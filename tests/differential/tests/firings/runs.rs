//! Runs of every length, and lists that are had in pieces.

use crate::in_both_kinds;
use differential::samples::{any_rules, busy_table};
use differential::table::Compared;
use eremothyn::Table;
use reference::calendar::LAST_MINUTE;
use reference::random::Random;
use reference::table::firings::Firing;

#[test]
fn runs_of_every_length() {
    in_both_kinds(
        "*/7 * * * * ~a\n@hourly ~b\n@reboot ~c\n0-59/7 * * * * ~d\n",
        |table| {
            let span = [100, 300];
            let needed = table.merged_list(span, 1_000).len();
            assert_eq!(needed, 2 * (3 + 3 * 9 + 1) + 4);
            for one in 0..needed + 3 {
                let _ = table.firings(0, span, one);
                for other in 0..needed + 3 {
                    let _ = table.merged_firings(span, [one, other]);
                }
            }
        },
    );
}

/// Longer runs than a page, and than 16 bits count.
#[test]
fn long_runs() {
    in_both_kinds("* * * * * ~a\n*/2 * * * * ~b\n", |table| {
        for length in [1_023, 1_024, 1_025, 2_049, 4_096, 65_535, 65_536, 65_537] {
            for last in [length - 1, length, length + 1] {
                let _ = table.firings(0, [0, last as u64], length);
                let _ = table.merged_firings([0, 2 * last as u64 / 3], [length, length]);
            }
            let _ = table.merged_firings([0, LAST_MINUTE], [length, length + 1]);
            let _ = table.merged_firings([0, LAST_MINUTE], [length + 1, length]);
        }
    });
}

/// The whole list of an entry: where more remain, the next call starts at the last minute that was filled.
fn in_pieces(table: Table, entry: u64, [mut a, b]: [u64; 2], length: usize) -> Vec<u32> {
    let mut list = Vec::new();
    loop {
        let mut run = vec![0; length];
        let filled = table.firings(entry, [a, b], &mut run[..]).expect("a list");
        list.extend(&run[..filled.count as usize]);
        if !filled.more {
            return list;
        }
        assert_eq!(filled.count, length as u64);
        a = run[length - 1].into();
    }
}

/// The whole list of a table: where more remain, the pairs of the last minute are left out, and the next call starts at the
/// minute before it.
fn merged_in_pieces(table: Table, [mut a, b]: [u64; 2], length: usize) -> Vec<Firing> {
    let mut list = Vec::new();
    loop {
        let (mut minutes, mut entries) = (vec![0; length], vec![0; length]);
        let filled = table.merged_firings([a, b], &mut minutes[..], &mut entries[..]);
        let filled = filled.expect("a list");
        let count = filled.count as usize;
        let pairs = minutes[..count].iter().copied().zip(entries);
        if !filled.more {
            list.extend(pairs);
            return list;
        }
        let last = minutes[count - 1];
        list.extend(pairs.filter(|&(minute, _)| minute < last));
        assert!(u64::from(last) - 1 > a, "no step was made");
        a = u64::from(last) - 1;
    }
}

#[test]
fn lists_in_pieces() {
    const MOST: usize = 100_000;
    let mut random = Random::seeded();
    let mut pieces = 0;
    for _ in 0..300 {
        let rules = any_rules(&mut random);
        let count = 1 + random.below(8);
        let bytes = busy_table(&mut random, rules, count);
        let compared = Compared::under(&bytes, rules);
        let table = Table::of(&bytes).under(rules);
        let a = random.below(LAST_MINUTE - 2_000);
        let span = [a, a + random.below(2_000)];
        // One place more than there are entries is enough.
        let length = (count + 1 + random.below(200)) as usize;
        let whole = compared.merged_list(span, MOST);
        pieces += whole.len() / length;
        assert_eq!(merged_in_pieces(table, span, length), whole);
        for entry in 0..count {
            if table.next(entry, 0) != Err(15) {
                let length = 1 + random.below(200) as usize;
                let whole = compared.list(entry, span, MOST);
                assert_eq!(in_pieces(table, entry, span, length), whole);
            }
        }
    }
    assert!(pieces > 1_000, "{pieces} pieces");
}
