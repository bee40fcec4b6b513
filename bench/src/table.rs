//! Reading a full table, of 49,152 bytes and 512 entries, as the library and the reference program do it: the same bytes,
//! the same count of entries. A system table stands beside the same entries as a user table, and a table of a quarter of both
//! limits beside the full one: a byte of either should cost the same. So should a table in either dialect.

use crate::measure::{in_turn, nanoseconds, print_pair, print_pair_head, round};
use eremothyn::Table;
use reference::table::{self, Dialect, Kind, Rules, ENTRIES, TABLE_BYTES};

const READS: usize = 500;

/// The library may take so many times as long as the reference program.
const GOAL: f64 = 1.2;

pub fn run() {
    let title = format!("table, {TABLE_BYTES} bytes and {ENTRIES} entries read, MB a second each");
    print_pair_head(&title, "reference program");
    compare("as people write it", &full(&WRITTEN), Kind::User);
    compare("lists in every field", &full(&LISTS), Kind::User);
    compare(
        "entries alone, no comments",
        &entries_alone(&WRITTEN),
        Kind::User,
    );
    compare(
        "the same as a system table",
        &entries_alone(&WRITTEN.map(with_user)),
        Kind::System,
    );
    println!("times as long as the reference program; goal: at most {GOAL}");

    let title = "table, a full one and a quarter of it, ns a byte";
    print_pair_head(title, "quarter");
    by_the_byte("as people write it", &WRITTEN);
    by_the_byte("lists in every field", &LISTS);
    println!("times as long a byte as the quarter; goal: at most 1");

    let title = "table, a full one in the second dialect and in the first, ns a byte";
    print_pair_head(title, "first");
    by_the_dialect("as people write it", &full(&WRITTEN));
    println!("times as long as in the first");
}

fn by_the_dialect(which: &str, table: &[u8]) {
    let inputs = vec![table; READS];
    let [first, second] = Dialect::BOTH.map(|dialect| move |bytes: &[u8]| library(bytes, dialect));
    let times = in_turn(&[&|| round(&inputs, second), &|| round(&inputs, first)]);
    let [second, first] = [times[0], times[1]].map(|time| time / table.len() as f64);
    print_pair(which, [second, first], second / first);
}

fn by_the_byte(which: &str, lines: &[&str]) {
    let full = filled(lines, ENTRIES, TABLE_BYTES);
    let quarter = filled(lines, ENTRIES / 4, TABLE_BYTES / 4);
    let check = |bytes: &[u8]| library(bytes, Kind::User);
    let inputs = [&full, &quarter].map(|table| vec![&table[..]; READS]);
    let times = in_turn(&[&|| round(&inputs[0], check), &|| round(&inputs[1], check)]);
    let [full, quarter] = [
        times[0] / full.len() as f64,
        times[1] / quarter.len() as f64,
    ];
    print_pair(which, [full, quarter], full / quarter);
}

fn compare(which: &str, bytes: &[u8], kind: Kind) {
    let library = |bytes: &[u8]| library(bytes, kind);
    let second = |bytes: &[u8]| second(bytes, kind);
    assert_eq!(bytes.len(), TABLE_BYTES);
    assert_eq!(library(bytes), ENTRIES as u64);
    assert_eq!(second(bytes), ENTRIES as u64);
    let inputs = vec![bytes; READS];
    let [library, second] = [nanoseconds(&inputs, library), nanoseconds(&inputs, second)];
    let speed = |time: f64| TABLE_BYTES as f64 / time * 1e3;
    print_pair(which, [library, second].map(speed), library / second);
}

fn library(bytes: &[u8], rules: impl Into<Rules>) -> u64 {
    let table = Table::of(bytes).under(rules.into());
    table.check().expect("a good table")
}

fn second(bytes: &[u8], kind: Kind) -> u64 {
    let table = table::read(bytes, kind).expect("a good table");
    table.entries.len() as u64
}

pub const WRITTEN: [&str; 16] = [
    "5 0 * * *       $HOME/bin/daily.job >> $HOME/tmp/out 2>&1",
    "15 14 1 * *     $HOME/bin/monthly",
    "0 22 * * 1-5    mail -s \"It's 10pm\" joe%Joe,%%Where are your kids?%",
    "23 0-23/2 * * * echo \"run 23 minutes after midn, 2am, 4am ..., everyday\"",
    "5 4 * * sun     echo \"run at 5 after 4 every sunday\"",
    "*/10 * * * *    /usr/lib/sa/sa1 1 1",
    "@reboot         /usr/local/bin/dome --park --wait 120 >> /var/log/dome.log 2>&1",
    "@daily          /usr/local/bin/rotate /var/log/observatory",
    "0,15,30,45 * * * * /usr/local/bin/weather --station roof --append /srv/weather.csv",
    "30 07,09,13,15 * * * /usr/local/bin/flat-field --lamp 3 --exposures 20",
    "30 4 1,15 * 5   /usr/local/bin/dewar --level --mail crew@example.org",
    "0 12 14 2 *     mailx john%Happy Birthday!%Time for lunch.",
    "@hourly         /usr/local/bin/clock-check --server time.example.org --limit 50ms",
    "17 2 * * 6      /usr/local/bin/backup --full /srv/archive /mnt/tape0 > /dev/null",
    "*/2 18-23 * 9-12 * /usr/local/bin/guide --camera 2 --log /srv/guide.log",
    "0 6 * jan mon   /usr/local/bin/report --last-week | mail -s report office@example.org",
];

pub const LISTS: [&str; 2] = [
    "1,4-9,11-59/2 0-5,7,9-23/3 1-15/2,20,25-31 1-6,8-12/2 0-2,4-7/2 /bin/a",
    "0,7,14,21,28,35,42,49,56 1,3,5,7,9,11 2,4,6,8,30,31 1,2,3,10,11,12 1,2,3,4,5 /bin/b",
];

/// An entry of a user table as a system table has it: a user stands before its command.
fn with_user(line: &str) -> String {
    let time = if line.starts_with('@') { 1 } else { 5 };
    let mut words: Vec<&str> = line.splitn(time + 1, ' ').collect();
    words.insert(time, "u:g/c");
    words.join(" ")
}

/// A table as full as may be.
pub fn full(lines: &[&str]) -> Vec<u8> {
    filled(lines, ENTRIES, TABLE_BYTES)
}

/// So many entries in turn, with settings and comments between them, filled up with comments to so many bytes.
fn filled(lines: &[&str], entries: usize, bytes: usize) -> Vec<u8> {
    let mut table = b"SHELL=/bin/sh\nMAILTO = \"paul\"\n".to_vec();
    for (number, line) in lines.iter().cycle().take(entries).enumerate() {
        if number % 4 == 0 {
            table.extend(format!("# {number}: what this job is for\n").bytes());
        }
        table.extend(line.bytes());
        table.push(b'\n');
    }
    while table.len() < bytes {
        let rest = bytes - table.len();
        let comment = rest.min(80) - 1;
        table.extend(format!("{:<comment$}\n", "#").bytes());
    }
    table
}

/// As many entries as may be, in a full table: each line is filled up to 96 bytes.
pub fn entries_alone(lines: &[impl AsRef<str>]) -> Vec<u8> {
    let width = TABLE_BYTES / ENTRIES - 1;
    let lines = lines.iter().cycle().take(ENTRIES);
    lines
        .flat_map(|line| format!("{:x<width$}\n", line.as_ref()).into_bytes())
        .collect()
}
