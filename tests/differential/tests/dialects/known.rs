//! By hand: the ticket's own words, source 001's night, and when such entries fire.

use differential::samples::of_kind;
use differential::table::Compared;
use reference::table::{Dialect, Kind, Rules};

/// A table, and its normal text.
const TEXTS: [(&str, &str); 16] = [
    (
        "0 8-18/3,19-7 * * * a\n",
        "0 0,1,2,3,4,5,6,7,8,11,14,17,19,20,21,22,23 * * * a\n",
    ),
    ("0 22-3/2 * * * a\n", "0 0,2,22 * * * a\n"),
    ("0 22-3/4 * * * a\n", "0 2,22 * * * a\n"),
    ("0 22-3/5 * * * a\n", "0 3,22 * * * a\n"),
    ("0 22-3/6 * * * a\n", "0 22 * * * a\n"),
    ("55-4/3 * * * * a\n", "1,4,55,58 * * * * a\n"),
    ("* * 30-2/2 * * a\n", "* * 1,30 * * a\n"),
    ("* * 31-1 * * a\n", "* * 1,31 * * a\n"),
    ("* * * 11-3/3 * a\n", "* * * 2,11 * a\n"),
    ("* * * nov-feb * a\n", "* * * 1,2,11,12 * a\n"),
    ("* * * * fri-sun a\n", "* * * * 0,5,6 a\n"),
    ("* * * * 5-4 a\n", "* * * * 0,1,2,3,4,5,6 a\n"),
    ("* * * * 0-sun a\n", "* * * * 0 a\n"),
    ("* * * * */7 a\n", "* * * * */7 a\n"),
    ("* * * * */9 a\n", "* * * * */7 a\n"),
    ("@weekly a\n", "0 0 * * 0 a\n"),
];

#[test]
fn normal_texts() {
    for (table, text) in TEXTS {
        let compared = Compared::under(table.as_bytes(), Dialect::Wrapping);
        assert_eq!(compared.normal_text().as_deref(), Ok(text.as_bytes()));
        compared.normal_form_into_all();
        compared.compile_into_all();
        // What is refused in the first dialect, or means the same there, or else is `0-sun`.
        let rising = Compared::of(table.as_bytes());
        match rising.fault() {
            Some([number, ..]) => assert_eq!(number, 7, "{table}"),
            None if table.contains("0-sun") => {
                let whole = "* * * * 0,1,2,3,4,5,6 a\n";
                assert_eq!(rising.normal_text().as_deref(), Ok(whole.as_bytes()));
            }
            None => assert_eq!(rising.normal_text().as_deref(), Ok(text.as_bytes())),
        }
    }
}

/// Fields, a minute, and the firings after it.
const FIRINGS: [(&str, u64, &[u64]); 6] = [
    // 1970-01-01 was a Thursday.
    ("0 22-3/2 * * *", 0, &[120, 1_320, 1_440, 1_560]),
    ("30 23-0 * * *", 30, &[1_410, 1_470, 2_850]),
    ("59-0 0 * * *", 0, &[59, 1_440, 1_499]),
    // Friday the 2nd, Saturday, Sunday, and the Friday after.
    ("0 0 * * fri-sun", 0, &[1_440, 2_880, 4_320, 11_520]),
    // The last of January and the first of February.
    ("0 0 31-1 * *", 0, &[43_200, 44_640]),
    // November is 304 days on.
    ("0 0 1 11-1/2 *", 0, &[437_760, 525_600]),
];

#[test]
fn firings() {
    for (fields, start, firings) in FIRINGS {
        for kind in Kind::BOTH {
            let table = of_kind(&format!("{fields} ~a\n"), kind);
            let compared = Compared::under(table.as_bytes(), Rules::of(kind, Dialect::Wrapping));
            let mut minute = start;
            for &firing in firings {
                assert_eq!(
                    compared.next(0, minute),
                    Ok(firing),
                    "{fields} after {minute}"
                );
                assert_eq!(compared.due(0, firing), Ok(1), "{fields}");
                minute = firing;
            }
            let span = [start, minute];
            let listed = compared.list(0, span, 100);
            assert_eq!(
                listed,
                firings.iter().map(|&at| at as u32).collect::<Vec<u32>>()
            );
            compared.firings_into_all(0, span);
            compared.merged_firings_into_all(span);
        }
    }
}
