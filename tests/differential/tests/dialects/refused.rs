//! What the second dialect refuses: 7 as a weekday with 6, and nothing with 7.

use crate::{column, with_field, WEEKDAYS};
use differential::samples::numbers;
use differential::table::Compared;
use reference::random::Random;
use reference::table::samples::{self, limits};
use reference::table::{Dialect, Kind, Rules};

/// The fault of a line in the second dialect, in both kinds.
fn fault(line: &str) -> Option<[u64; 3]> {
    let [user, system] = Kind::BOTH.map(|kind| {
        let rules = Rules::of(kind, Dialect::Wrapping);
        Compared::under(line.as_bytes(), rules).fault()
    });
    assert_eq!(user, system, "{line}");
    user
}

/// Wherever it stands, at the first byte of its element.
#[test]
fn seven_is_no_weekday() {
    let elements = [
        "7", "07", "0007", "7-7", "7-0", "0-7", "7-7/2", "6-7/0", "7-6/0", "sun-7", "7-sun",
        "fri-7", "7-fri", "1-7/3", "7-1/3", "8", "7-8", "9999",
    ];
    for element in elements {
        for before in ["", "0,", "fri-sun,5-4/3,", "6-0,"] {
            for behind in ["", ",1", ",7", ",3-2/0"] {
                let line = with_field(WEEKDAYS, &format!("{before}{element}{behind}"))
                    .replace("a\n", "a b\n");
                let expected = Some([6, 1, column(WEEKDAYS) + before.len() as u64]);
                assert_eq!(fault(&line), expected, "{line}");
            }
        }
    }
}

/// As a step and in the other fields it is a number like any other.
#[test]
fn seven_elsewhere() {
    for line in [
        "* * * * 1-6/7 a b\n",
        "* * * * 6-1/7 a b\n",
        "* * * * */7 a b\n",
        "7 7 7 7 0 a b\n",
        "7-6 7-6 7-6 7-6 * a b\n",
    ] {
        assert_eq!(fault(line), None, "{line}");
    }
}

/// Form comes before limits, limits before the step, and a reversed range between them is no fault.
#[test]
fn the_order_of_refusals() {
    for (which, (first, last)) in limits(Dialect::Wrapping).into_iter().enumerate() {
        let above = last + 1;
        let rows = [
            (format!("{last}-{first}/"), 5, 0),
            (format!("{last}-{first}/0,{first}-"), 5, 0),
            (format!("{above}-{first}/0"), 6, 0),
            (format!("{last}-{above}/0"), 6, 0),
            (format!("{last}-{first}/0"), 8, 0),
            (format!("{last}-{first}/0000,{above}"), 8, 0),
            (format!("{first},{last}-{first}/0"), 8, 2),
        ];
        for (field, number, before) in rows {
            let line = with_field(which, &field).replace("a\n", "a b\n");
            let expected = Some([number, 1, column(which) + before]);
            assert_eq!(fault(&line), expected, "{line}");
        }
    }
}

/// Good tables, bad ones and damaged ones of either dialect, read in the second.
#[test]
fn no_table_is_refused_with_7() {
    let mut random = Random::seeded();
    let mut refused = 0;
    for _ in 0..40_000 {
        let written = random.pick(&Rules::ALL);
        let lines = random.below(4);
        let mut table = samples::table(&mut random, written, lines);
        match random.below(3) {
            0 => table.extend(samples::bad_line(&mut random, written).0),
            1 => table = samples::mutated(&mut random, &table),
            _ => {}
        }
        let read = Rules::of(written.kind, Dialect::Wrapping);
        let compared = Compared::under(&table, numbers(&mut random, read));
        if let Some([number, ..]) = compared.fault() {
            refused += 1;
            assert_ne!(number, 7, "{}", table.escape_ascii());
        }
    }
    assert!(refused > 1_000, "{refused} are refused");
}
