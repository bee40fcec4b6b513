//! `examples/daemon.c` beside the reference program, which keeps the same site's line.

use c::{build, complaint, root, run, scratch, told, word};
use reference::calendar::{date_of, minute_of, Date};
use reference::command::split;
use reference::queue::Queue;
use reference::table::offset::known;
use reference::table::{calls::Calls, read, Dialect, Entry, Kind, Part, Rules, Setting, Table};
use std::fs;
use std::path::Path;

const WEEKDAYS: [&str; 7] = ["Sun", "Mon", "Tue", "Wed", "Thu", "Fri", "Sat"];

fn date(minute: u64) -> String {
    date_text(date_of(minute).expect("on the calendar"))
}

fn date_text(date: Date) -> String {
    let [year, month, day, hour, minute, weekday] = date.parts();
    let weekday = WEEKDAYS[weekday as usize];
    format!("{year:04}-{month:02}-{day:02} {weekday} {hour:02}:{minute:02}")
}

/// What the clock of an entry shows at a minute, if that isn't UTC.
fn local(entry: &Entry, minute: u64) -> String {
    let shown = minute.checked_add_signed(entry.offset).and_then(date_of);
    match (entry.offset, shown) {
        (0, _) => String::new(),
        (_, Some(shown)) => format!("  local {}", date_text(shown)),
        (_, None) => "  local off the calendar".to_string(),
    }
}

/// What the daemon's log says of a table, a pace and spans of minutes.
fn log(bytes: &[u8], rules: Rules, pace: u64, spans: &[(u64, u64)]) -> Vec<String> {
    let table = read(bytes, rules).expect("a good table");
    let mut queue = Queue::fresh(&table);
    let first = spans[0].0;
    let mut log = opening(bytes, rules, &table, first);
    log.push(format!(
        "{}  boot, {} wait",
        date(first),
        queue.waiting.len()
    ));
    for minute in spans.iter().flat_map(|&(first, last)| first..=last) {
        log.extend(lived(bytes, &table, &mut queue, minute, pace));
    }
    log
}

/// The settings, and when each entry fires next.
fn opening(bytes: &[u8], rules: Rules, table: &Table, first: u64) -> Vec<String> {
    let text = |part: Part| text(bytes, part);
    let setting =
        |(_, of): &(u64, Setting)| format!("setting   |{}| = |{}|", text(of.name), text(of.value));
    let calls = Calls::of(bytes, rules);
    let next = |entry: u64| match calls.next(entry, first) {
        Ok(minute) => {
            let local = local(&table.entries[entry as usize], minute);
            format!("entry {entry:2}  next {}{local}", date(minute))
        }
        Err(15) => format!("entry {entry:2}  fires at boot only"),
        Err(16) => format!("entry {entry:2}  never fires"),
        Err(_) => format!("entry {entry:2}  fires no more before the year 10000"),
    };
    let entries = 0..table.entries.len() as u64;
    table
        .settings
        .iter()
        .map(setting)
        .chain(entries.map(next))
        .collect()
}

/// One minute: who joins, and who is taken.
fn lived(bytes: &[u8], table: &Table, queue: &mut Queue, minute: u64, pace: u64) -> Vec<String> {
    let at = date(minute);
    let mut log = Vec::new();
    let joined = queue.tick(table, minute).expect("a minute of the calendar");
    if joined > 0 {
        log.push(format!(
            "{at}  {joined} joined, {} wait",
            queue.waiting.len()
        ));
    }
    for _ in 0..pace {
        let Some(entry) = queue.pop(table).expect("its line") else {
            break;
        };
        let taken = &table.entries[entry as usize];
        let command = split(taken.command);
        let parts = ["user", "group", "class"]
            .into_iter()
            .zip(taken.column.parts());
        let runs_as: String = parts
            .filter_map(|(name, part)| Some(format!("  {name} |{}|", text(bytes, part?))))
            .collect();
        log.push(format!(
            "{at}  start entry {entry:2}  |{}|{runs_as}{}",
            shown(&command.shell),
            local(taken, minute)
        ));
        if let Some(input) = command.input {
            log.push(format!("{:>38}  |{}|", "standard input", shown(&input)));
        }
    }
    log
}

fn text(bytes: &[u8], part: Part) -> String {
    shown(&bytes[part.offset..part.offset + part.length])
}

fn shown(text: &[u8]) -> String {
    let byte = |&byte: &u8| match byte {
        b'\n' => "\\n".to_string(),
        b'\\' => "\\\\".to_string(),
        b' '..=b'~' => (byte as char).to_string(),
        _ => format!("\\x{byte:02x}"),
    };
    text.iter().map(byte).collect()
}

/// A minute as the daemon takes it.
fn argument(minute: u64) -> String {
    let [year, month, day, hour, minute, _] = date_of(minute).expect("on the calendar").parts();
    format!("{year:04}-{month:02}-{day:02}T{hour:02}:{minute:02}")
}

const USER: Rules = Rules::of(Kind::User, Dialect::Rising);
const SYSTEM: Rules = Rules::of(Kind::System, Dialect::Rising);
const WRAPPING: Rules = Rules::of(Kind::User, Dialect::Wrapping);

const TABLES: [(&[u8], Rules); 8] = [
    (b"* * * * * a\n@reboot b\n0 * * * * c\n", USER),
    (
        b"a = \n0 0 30 2 * never\n'b c'=\"d\" \n0 0 1 1 * last\n* * * * * tab\there\\n%\xff%\n",
        USER,
    ),
    (b"", USER),
    (
        b"@reboot u b\n* * * * * u:g a\n0 * * * * u/l c%\n*/2 * * * * u:g/l  d\n",
        SYSTEM,
    ),
    (b"A=b\n", SYSTEM),
    (
        b"* * * * * a\n  \"CRON_TZ\"='-12:00'\n* * * * * b\nCRON_TZ = +14:00 \n* * * * * c\n",
        USER,
    ),
    // A boot job under a clock that shows no date of the calendar yet, or any more.
    (
        b"CRON_TZ=-12:00\n@reboot a\nCRON_TZ=+14:00\n@reboot b\n",
        USER,
    ),
    (
        b"CRON_TZ=+03:00\n55-5/5 22-1 * * sat-sun u a\n",
        Rules::of(Kind::System, Dialect::Wrapping),
    ),
];

#[test]
fn the_log_is_the_second_programs() {
    let folder = scratch("daemon-log");
    let program = build(&["examples/daemon.c"], &folder);
    let compare = |table: &[u8], rules: Rules| {
        compare_logs(&folder.join("table"), &program, table, rules);
    };
    for (table, rules) in TABLES {
        compare(table, rules);
    }
    compare(known::SEVERAL.replace('~', "u:g ").as_bytes(), SYSTEM);
    for (name, rules) in [
        ("observatory", USER),
        ("system", SYSTEM),
        // Its users are the first words of its commands.
        ("system", USER),
        ("two_sites", USER),
        ("over_midnight", WRAPPING),
    ] {
        let path = root().join(format!("examples/{name}.crontab"));
        compare(&fs::read(path).expect("the crontab"), rules);
    }
}

/// Runs a table over some spans of minutes at every sort of pace.
fn compare_logs(path: &Path, program: &Path, table: &[u8], rules: Rules) {
    fs::write(path, table).expect("the table is written");
    let kind = (rules.kind == Kind::System).then_some("-s");
    let dialect = (rules.dialect == Dialect::Wrapping).then_some("-w");
    let options: Vec<&str> = [dialect, kind].into_iter().flatten().collect();
    for spans in spans() {
        for pace in [0, 1, 3, 999] {
            let mut arguments: Vec<String> = options.iter().map(|word| word.to_string()).collect();
            arguments.extend([word(path).to_string(), pace.to_string()]);
            arguments.extend(
                spans
                    .iter()
                    .flat_map(|&(first, last)| [argument(first), argument(last)]),
            );
            let output = run(program, &arguments);
            let (text, status) = told(&output);
            assert_eq!(status, Some(0), "{arguments:?}");
            let lines: Vec<&str> = text.lines().collect();
            assert_eq!(lines, log(table, rules, pace, &spans), "{arguments:?}");
        }
    }
}

fn spans() -> [Vec<(u64, u64)>; 6] {
    let evening = minute_of(2026, 11, 15, 21, 0).expect("a date");
    let at = |minute: u64| (evening + minute, evening + minute + 5);
    [
        vec![(0, 20), (evening, evening + 60)],
        // Two hours forward and back; then three hours forward, back by a minute less and by three hours, and forward by a minute
        // more.
        vec![at(20), at(145), at(30), at(31)],
        vec![at(28), at(213), at(39), at(38), at(224)],
        vec![(59, 61)],
        vec![(4_223_371_600, 4_223_371_679)],
        vec![(evening, evening), (0, 0), (5, 5)],
    ]
}

/// 01's whole run: request, announce 59, announce 60, then requests until nothing waits.
#[test]
fn the_papers_whole_run_starts_b_a_c() {
    let folder = scratch("daemon-run");
    let program = build(&["examples/daemon.c"], &folder);
    let path = folder.join("table");
    fs::write(&path, "* * * * * a\n@reboot b\n0 * * * * c\n").expect("the table is written");
    let (text, _) = told(&run(
        &program,
        &[word(&path), "1", "1970-01-01T00:59", "1970-01-01T01:01"],
    ));
    let starts: Vec<&str> = text
        .lines()
        .filter_map(|line| line.split_once("|").map(|(_, rest)| rest))
        .collect();
    assert_eq!(starts, ["b|", "a|", "c|"]);
}

#[test]
fn refusals_and_wrong_arguments_are_said() {
    let folder = scratch("daemon-refused");
    let program = build(&["examples/daemon.c"], &folder);
    let path = folder.join("table");
    fs::write(&path, "# one\n0 0 * * mon/2 b\n").expect("the table is written");
    let fault = format!("{}:2:9: refused 5: ", word(&path));
    // As a system table it has the same fault; `~` is the table.
    let rows = [
        ("~, 1, 1970-01-01T00:00, 1970-01-01T00:00", 1, &fault[..]),
        ("-s, ~, 1, 1970-01-01T00:00, 1970-01-01T00:00", 1, &fault),
        ("-w, ~, 1, 1970-01-01T00:00, 1970-01-01T00:00", 1, &fault),
        (
            "-s, -w, ~, 1, 1970-01-01T00:00, 1970-01-01T00:00",
            1,
            &fault,
        ),
        ("~, -w, 1, 1970-01-01T00:00, 1970-01-01T00:00", 2, "usage: "),
        ("~, -s, 1, 1970-01-01T00:00, 1970-01-01T00:00", 2, "usage: "),
        ("-x, ~, 1, 1970-01-01T00:00, 1970-01-01T00:00", 2, "usage: "),
        ("-s", 2, "usage: "),
        (
            "/nowhere, 1, 1970-01-01T00:00, 1970-01-01T00:00",
            2,
            "/nowhere: No such file",
        ),
        (
            "~, 1, 2100-02-29T00:00, 2100-03-01T00:00",
            1,
            "daemon: 2100-02-29T00:00: refused 14: ",
        ),
        ("~, 1, 1970-01-01 00:00, 1970-01-01T00:00", 2, "usage: "),
        ("~, -1, 1970-01-01T00:00, 1970-01-01T00:00", 2, "usage: "),
        ("~, 1, 1970-01-01T00:00", 2, "usage: "),
        ("~, 1000, 1970-01-01T00:00, 1970-01-01T00:00", 2, "usage: "),
        ("~, 1, 1970-01-01T00:01, 1970-01-01T00:00", 2, "usage: "),
        ("", 2, "usage: "),
    ];
    for (arguments, status, start) in rows {
        let arguments = arguments.replace('~', word(&path));
        let words = arguments.split(", ").filter(|word| !word.is_empty());
        let words: Vec<&str> = words.collect();
        let output = run(&program, &words);
        assert_eq!(told(&output), (String::new(), Some(status)), "{words:?}");
        let said = complaint(&output);
        assert!(said.starts_with(start), "{words:?}: {said}");
    }
}
