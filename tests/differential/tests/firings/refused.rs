//! Refusals in their order. A refused call changes no number.

use crate::{all, in_both_kinds, more};
use differential::table::Compared;
use reference::calendar::LAST_MINUTE;
use reference::random::Random;
use reference::table::{samples, Kind};

const OFF: [u64; 4] = [LAST_MINUTE + 1, 1 << 32, (1 << 32) + 5, u64::MAX];

/// Entry 0 fires every minute, entry 1 at boot alone, entry 2 never.
const TABLE: &str = "* * * * * ~a\n@reboot ~b\n0 0 30 2 * ~c\n";

#[test]
fn minutes_off_the_calendar() {
    in_both_kinds(TABLE, |table| {
        for off in OFF {
            for span in [
                [off, 0],
                [0, off],
                [off, off],
                [off, LAST_MINUTE],
                [LAST_MINUTE, off],
            ] {
                for entry in 0..3 {
                    assert_eq!(table.firings(entry, span, 3), Err(14));
                    assert_eq!(table.firings(entry, span, 0), Err(14));
                }
                // Before it comes the entry's number.
                assert_eq!(table.firings(3, span, 3), Err(13));
                assert_eq!(table.merged_firings(span, [3, 3]), Err(14));
                assert_eq!(table.merged_firings(span, [0, 0]), Err(14));
            }
        }
    });
}

#[test]
fn entries_that_are_not_there() {
    in_both_kinds(TABLE, |table| {
        for entry in [
            3,
            4,
            513,
            1 << 16,
            (1 << 16) + 1,
            1 << 32,
            1 << 63,
            u64::MAX,
        ] {
            for span in [[0, 5], [5, 0], [0, 0], [0, LAST_MINUTE]] {
                assert_eq!(table.firings(entry, span, 3), Err(13));
                assert_eq!(table.firings(entry, span, 0), Err(13));
            }
        }
    });
}

/// An entry at boot alone is refused in any span of the calendar, empty or reversed; a table's list goes without it.
#[test]
fn entries_at_boot_alone() {
    in_both_kinds(TABLE, |table| {
        for span in [
            [0, 5],
            [5, 0],
            [0, 0],
            [LAST_MINUTE, LAST_MINUTE],
            [0, LAST_MINUTE],
        ] {
            assert_eq!(table.firings(1, span, 3), Err(15));
            assert_eq!(table.firings(1, span, 0), Err(15));
        }
        assert_eq!(table.merged_firings([0, 3], [4, 4]), all(3));
        let first: Vec<u16> = table
            .merged_list([0, 3], 4)
            .iter()
            .map(|firing| firing.1)
            .collect();
        assert_eq!(first, [0, 0, 0]);
    });
}

/// Never and past the end are no refusals here.
#[test]
fn entries_that_do_not_fire() {
    in_both_kinds(TABLE, |table| {
        assert_eq!(table.next(2, 0), Err(16));
        assert_eq!(table.firings(2, [0, LAST_MINUTE], 3), all(0));
        assert_eq!(table.next(0, LAST_MINUTE), Err(17));
        assert_eq!(table.firings(0, [LAST_MINUTE, LAST_MINUTE], 3), all(0));
        assert_eq!(table.firings(0, [LAST_MINUTE - 1, LAST_MINUTE], 3), all(1));
        assert_eq!(table.firings(0, [LAST_MINUTE - 2, LAST_MINUTE], 1), more(1));
    });
}

/// A bad table comes before all else.
#[test]
fn bad_tables() {
    let mut random = Random::seeded();
    for _ in 0..3_000 {
        let kind = random.pick(&Kind::BOTH);
        let good = samples::table(&mut random, kind, 2);
        let (line, _, _) = samples::bad_line(&mut random, kind);
        let table = [&good[..], &line, b"\n"].concat();
        let compared = Compared::under(&table, kind);
        let Some([number, _, _]) = compared.fault() else {
            panic!("{} is good", table.escape_ascii());
        };
        for span in [[0, 50], [50, 0], [u64::MAX, 0], [0, u64::MAX]] {
            assert_eq!(compared.firings(0, span, 3), Err(number));
            assert_eq!(compared.firings(u64::MAX, span, 3), Err(number));
            assert_eq!(compared.merged_firings(span, [3, 2]), Err(number));
        }
    }
}
