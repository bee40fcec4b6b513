//! Lists that were worked out by hand.

use crate::{all, in_both_kinds, more};
use reference::calendar::LAST_MINUTE;

/// Days from 1970-01-01 to 1972-02-29, and from one leap day to the next.
const LEAP_DAY: u32 = 365 + 365 + 31 + 28;
const FOUR_YEARS: u32 = 1_461;
const DAY: u32 = 1_440;
const LAST: u32 = LAST_MINUTE as u32;

/// An entry, a span, and its firings in it.
const ENTRIES: &[(&str, [u64; 2], &[u32])] = &[
    ("*/5 * * * * ~a\n", [0, 20], &[5, 10, 15, 20]),
    ("*/5 * * * * ~a\n", [4, 19], &[5, 10, 15]),
    ("*/5 * * * * ~a\n", [5, 5], &[]),
    ("*/5 * * * * ~a\n", [20, 0], &[]),
    ("*/5 * * * * ~a\n", [5, 9], &[]),
    ("* * * * * ~a\n", [7, 10], &[8, 9, 10]),
    ("0 0 1 1 * ~a\n", [0, 525_600], &[525_600]),
    ("0 0 1 1 * ~a\n", [0, 525_599], &[]),
    (
        "0 0 29 2 * ~a\n",
        [0, 4_000_000],
        &[LEAP_DAY * DAY, (LEAP_DAY + FOUR_YEARS) * DAY],
    ),
    ("0 0 30 2 * ~a\n", [0, LAST_MINUTE], &[]),
    (
        "59 23 31 12 * ~a\n",
        [LAST_MINUTE - 1, LAST_MINUTE],
        &[LAST],
    ),
    ("59 23 31 12 * ~a\n", [LAST_MINUTE, LAST_MINUTE], &[]),
    ("58 23 31 12 * ~a\n", [LAST_MINUTE - 1, LAST_MINUTE], &[]),
    // Midnight an hour ahead of UTC is at eleven.
    (
        "CRON_TZ=+01:00\n@daily ~a\n",
        [0, 3 * 1_440],
        &[1_380, 2_820, 4_260],
    ),
    // Before 1970 by the local clock nothing fires.
    ("CRON_TZ=-00:02\n* * * * * ~a\n", [0, 4], &[2, 3, 4]),
    (
        "CRON_TZ=+00:02\n* * * * * ~a\n",
        [LAST_MINUTE - 4, LAST_MINUTE],
        &[LAST - 3, LAST - 2],
    ),
];

#[test]
fn of_an_entry() {
    for &(table, span, firings) in ENTRIES {
        in_both_kinds(table, |table| {
            assert_eq!(table.list(0, span, 10), firings, "{span:?}");
            let count = firings.len();
            assert_eq!(table.firings(0, span, count + 1), all(count));
            assert_eq!(table.firings(0, span, count), all(count));
            for short in 0..count {
                assert_eq!(table.firings(0, span, short), more(short));
            }
        });
    }
}

/// Entry 1 is at boot alone, entry 3 never.
const TABLE: &str =
    "*/2 * * * * ~a\n@reboot ~b\n*/3 * * * * ~c\n0 0 30 2 * ~d\nCRON_TZ=+00:01\n*/6 * * * * ~e\n";

#[test]
fn of_a_table() {
    let span = [0, 6];
    let merged = [(2, 0), (3, 2), (4, 0), (5, 4), (6, 0), (6, 2)];
    in_both_kinds(TABLE, |table| {
        assert_eq!(table.merged_list(span, 10), merged);
        assert_eq!(table.merged_firings(span, [6, 6]), all(6));
        assert_eq!(table.merged_firings(span, [7, 6]), all(6));
        assert_eq!(table.merged_firings(span, [6, 7]), all(6));
        // Cut between the entries of a minute.
        assert_eq!(table.merged_firings(span, [5, 5]), more(5));
        assert_eq!(table.merged_firings(span, [5, 100]), more(5));
        assert_eq!(table.merged_firings(span, [100, 5]), more(5));
        assert_eq!(table.merged_firings(span, [0, 100]), more(0));
        assert_eq!(table.merged_firings(span, [100, 0]), more(0));
        assert_eq!(table.merged_firings(span, [0, 0]), more(0));
        // The first firing of the table.
        assert_eq!(table.merged_firings([4, LAST_MINUTE], [1, 1]), more(1));
        assert_eq!(table.merged_list([4, LAST_MINUTE], 1), [(5, 4)]);
    });
}

/// Nothing fires: none, whatever the run.
#[test]
fn of_tables_without_firings() {
    for table in [
        "",
        "# a\n",
        "A=b\n",
        "@reboot ~a\n",
        "0 0 31 4 * ~a\n@reboot ~b\n",
    ] {
        in_both_kinds(table, |table| {
            for lengths in [[0, 0], [0, 3], [3, 0], [3, 3]] {
                assert_eq!(table.merged_firings([0, LAST_MINUTE], lengths), all(0));
                assert_eq!(table.merged_firings([9, 3], lengths), all(0));
            }
        });
    }
}
