//! An announcement and a request with a full table, of 49,152 bytes and 512 entries. Both programs read the table at
//! every call, and start each call from the same line. Then both calls beside reading the table alone.

mod catching_up;

use crate::measure::{in_turn, nanoseconds, print_pair, print_pair_head, round};
use crate::table::entries_alone;
use eremothyn::Table;
use reference::queue::Queue;
use reference::table::offset::{text, WEST};
use reference::table::{read, Kind, ENTRIES, TABLE_BYTES};
use std::hint::black_box;
use std::time::Instant;

const CALLS: usize = 200;

/// As much room as is always enough.
const ROOM: usize = 8 * ENTRIES + 64;

/// At these minutes every entry is due, and at those before and after them none.
const ALL_DUE: u64 = 28_401_120;
const ALL_DUE_AGAIN: u64 = ALL_DUE + 30;
const NONE_DUE: u64 = ALL_DUE + 1;

/// A line, in the library's bytes and in the reference program's list.
#[derive(Clone)]
struct Line {
    room: [u8; ROOM],
    queue: Queue,
}

impl Line {
    /// A line of a table without boot jobs: nobody waits, and there is no mark.
    fn fresh(table: &[u8]) -> Line {
        let mut room = [0; ROOM];
        assert_eq!(Table::of(table).queue_init(&mut room[..]), Ok(0));
        Line {
            room,
            queue: Queue::default(),
        }
    }

    /// The line after an announcement.
    fn ticked(mut self, table: &[u8], minute: u64, joined: usize) -> Line {
        let joined = Ok(joined as u64);
        assert_eq!(library_tick(table, &mut self, minute), joined);
        assert_eq!(second_tick(table, &mut self, minute), joined);
        self
    }
}

pub fn run() {
    each_minute();
    catching_up::run();
}

fn each_minute() {
    let table = full();
    // Every call is made a minute after the mark.
    let empty = Line::fresh(&table).ticked(&table, ALL_DUE - 1, 0);
    let waiting = empty.clone().ticked(&table, ALL_DUE, ENTRIES);
    let waiting = waiting.ticked(&table, ALL_DUE_AGAIN - 1, 0);
    let idle = Line::fresh(&table).ticked(&table, NONE_DUE, 0);

    let title = format!("queue, {TABLE_BYTES} bytes and {ENTRIES} entries, microseconds a call");
    print_pair_head(&title, "reference program");
    let rows = [
        ("tick, nothing is due", &idle, NONE_DUE + 1),
        ("tick, all join", &empty, ALL_DUE),
        ("tick, all wait", &waiting, ALL_DUE_AGAIN),
    ];
    for (what, line, minute) in rows {
        row(
            what,
            line,
            |line| library_tick(&table, line, minute),
            |line| second_tick(&table, line, minute),
        );
    }
    let pop = |line: &mut Line| Table::of(&table).queue_pop(&mut line.room[..]);
    let second_pop = |line: &mut Line| line.queue.pop(&read(&table, Kind::User).expect(GOOD));
    row("pop, all wait", &waiting, pop, second_pop);
    row("pop, nothing waits", &empty, pop, second_pop);
    println!("times as long as the reference program");

    print_pair_head(
        "queue, the same beside reading the table, microseconds a call",
        "reading",
    );
    let all = Ok(ENTRIES as u64);
    beside_reading("tick, all wait", &table, &waiting, |line| {
        library_tick(&table, line, ALL_DUE_AGAIN) == Ok(0)
    });
    beside_reading("tick, all join", &table, &empty, |line| {
        library_tick(&table, line, ALL_DUE) == all
    });
    let clocks = with_clocks("*/10 * * * *");
    beside_reading("tick, all join, 64 clocks", &clocks, &empty, |line| {
        library_tick(&clocks, line, ALL_DUE) == all
    });
    beside_reading("pop, all wait", &table, &waiting, |line| pop(line).is_ok());
    println!("times as long as reading; goals: a tick where all wait at most 1.3, a pop 1.1");
}

fn beside_reading(what: &str, table: &[u8], line: &Line, call: impl Fn(&mut Line) -> bool) {
    let tables = vec![table; CALLS];
    // Each call gets a line of its own, made before the clock starts.
    let calls = || {
        let mut lines = vec![line.clone(); CALLS];
        let start = Instant::now();
        for line in &mut lines {
            assert!(black_box(call(line)));
        }
        start.elapsed().as_nanos() as f64 / CALLS as f64
    };
    let reading = || round(&tables, |table| Table::of(table).check());
    let times = in_turn(&[&calls, &reading]);
    print_pair(what, [times[0] / 1e3, times[1] / 1e3], times[0] / times[1]);
}

fn row<T: PartialEq + std::fmt::Debug>(
    what: &str,
    line: &Line,
    library: impl Fn(&mut Line) -> T,
    second: impl Fn(&mut Line) -> T,
) {
    assert_eq!(library(&mut line.clone()), second(&mut line.clone()));
    let inputs = vec![line; CALLS];
    let microseconds =
        |call: &dyn Fn(&mut Line) -> T| nanoseconds(&inputs, |line| call(&mut line.clone())) / 1e3;
    let [library, second] = [microseconds(&library), microseconds(&second)];
    print_pair(what, [library, second], library / second);
}

const GOOD: &str = "a good table";

fn library_tick(table: &[u8], line: &mut Line, minute: u64) -> Result<u64, u64> {
    Table::of(table).queue_tick(&mut line.room[..], minute)
}

fn second_tick(table: &[u8], line: &mut Line, minute: u64) -> Result<u64, u64> {
    line.queue
        .tick(&read(table, Kind::User).expect(GOOD), minute)
}

/// Entries that are all due at the same minutes, in 96 bytes each.
fn full() -> Vec<u8> {
    let fields = [
        "*/10 * * * *",
        "0,30 */2 * * 0-7",
        "0-59/5 0-23 1-31 1-12 *",
    ];
    entries_alone(&fields.map(|fields| format!("{fields} /usr/local/bin/camera --expose ")))
}

/// As many entries with these fields, and a local clock for each eight, whole tens of minutes ahead of UTC.
fn with_clocks(fields: &str) -> Vec<u8> {
    let entry = format!("{fields} /usr/local/bin/camera --expose ");
    let entry = format!("{entry:x<93}\n");
    let lines = (0..ENTRIES).map(|number| match number % 8 {
        0 => format!("CRON_TZ={}\n{entry}", text(WEST + 20 * (number as i64 / 8))),
        _ => entry.clone(),
    });
    lines.collect::<String>().into_bytes()
}
