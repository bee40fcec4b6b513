//! An announcement that catches up 180 minutes (ticket 2026-10), with a full table of fixed entries alone, beside reading the
//! table, and beside the plain method: the reference program asks about each entry at each of the minutes.

use super::{beside_reading, library_tick, second_tick, with_clocks, Line};
use crate::measure::{in_turn, print_pair, print_pair_head, round};
use crate::table::entries_alone;
use reference::calendar::minute_of;
use reference::table::ENTRIES;

/// The mark is 21:00 of this day, 2026-02-28, a Saturday, and midnight is announced.
const DAY: (u64, u64, u64) = (2026, 2, 28);

/// How many calls a round has beside the plain method, which takes milliseconds for one.
const PLAIN_CALLS: usize = 5;

/// What the entries are, their fields in turn, and how many of them join.
const ROWS: [(&str, &[&str], usize); 8] = [
    ("all are due", &["30 22 * * *"], ENTRIES),
    ("all at the last minute", &["0 0 * * *"], ENTRIES),
    (
        "lists, all are due",
        &["7,22,37,52 1-5,18-23/2 1-31 1-12 *"],
        ENTRIES,
    ),
    ("due at other hours", &["30 4 * * *"], 0),
    ("29 February", &["0 0 29 2 *"], 0),
    ("29 February on a Sunday", &["0 0 29 2 */7"], 0),
    ("never", &["0 0 30 2 *"], 0),
    (
        "a mix of rare ones",
        &[
            "0 0 29 2 *",
            "59 23 31 12 *",
            "0 0 29 2 */7",
            "0 0 30 2 *",
            "30 4 1,15 * 5",
            "0 12 14 2 *",
            "1 0 31 1,3 1-5",
            "0 6 * jan mon",
        ],
        0,
    ),
];

struct Case {
    what: String,
    table: Vec<u8>,
    line: Line,
    minute: u64,
    joined: usize,
}

impl Case {
    fn of(what: &str, table: Vec<u8>, joined: usize) -> Case {
        let (year, month, day) = DAY;
        let mark = minute_of(year, month, day, 21, 0).expect("a date");
        let mut line = Line::fresh(&table);
        line.queue.mark = Some(mark);
        line.queue.lay(&mut line.room);
        Case {
            what: what.to_string(),
            table,
            line,
            minute: mark + 180,
            joined,
        }
    }
}

pub fn run() {
    let mut cases: Vec<Case> = ROWS
        .iter()
        .map(|(what, fields, joined)| {
            let lines: Vec<String> = fields
                .iter()
                .map(|fields| format!("{fields} /bin/a "))
                .collect();
            Case::of(what, entries_alone(&lines), *joined)
        })
        .collect();
    cases.push(Case::of(
        "29 February, 64 clocks",
        with_clocks("0 0 29 2 *"),
        0,
    ));

    print_pair_head(
        "queue, a tick that catches up 180 minutes beside reading the table, microseconds a call",
        "reading",
    );
    for case in &cases {
        let joined = Ok(case.joined as u64);
        beside_reading(&case.what, &case.table, &case.line, |line| {
            library_tick(&case.table, line, case.minute) == joined
        });
    }
    println!("times as long as reading; goal: at most 3");
    print_pair_head(
        "queue, the same beside 180 tests of each entry, microseconds a call",
        "plain method",
    );
    for case in &cases {
        beside_plain(case);
    }
    println!("times as long as the plain method, which the reference program has");
}

fn beside_plain(case: &Case) {
    let calls = vec![case; PLAIN_CALLS];
    let library = |case: &Case| library_tick(&case.table, &mut case.line.clone(), case.minute);
    let plain = |case: &Case| second_tick(&case.table, &mut case.line.clone(), case.minute);
    assert_eq!(plain(case), Ok(case.joined as u64), "{}", case.what);
    let times = in_turn(&[&|| round(&calls, library), &|| round(&calls, plain)]);
    let [library, plain] = [times[0] / 1e3, times[1] / 1e3];
    print_pair(&case.what, [library, plain], library / plain);
}
