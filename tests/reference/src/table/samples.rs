//! Tables of both kinds and dialects for the comparisons: good ones, bad lines with their place, and tables with some bytes
//! changed.

use super::offset::samples as offsets;
use super::{read, Dialect, Kind, Rules, When, NAME_BYTES};
use crate::random::Random;
use crate::schedule::Schedule;

/// First and last value of each field in the first dialect.
pub const LIMITS: [(u64, u64); 5] = [(0, 59), (0, 23), (1, 31), (1, 12), (0, 7)];

/// The same in either dialect.
pub fn limits(dialect: Dialect) -> [(u64, u64); 5] {
    match dialect {
        Dialect::Rising => LIMITS,
        Dialect::Wrapping => [(0, 59), (0, 23), (1, 31), (1, 12), (0, 6)],
    }
}

pub(super) const NAMES: [&[&str]; 5] = [
    &[],
    &[],
    &[],
    &[
        "jan", "FEB", "Mar", "aPR", "may", "JUN", "jul", "Aug", "sEp", "oct", "NOV", "dec",
    ],
    &["sun", "MON", "Tue", "wED", "thu", "Fri", "sAt"],
];

/// The eight words.
pub const WORDS: [&str; 8] = [
    "@reboot",
    "@yearly",
    "@annually",
    "@monthly",
    "@weekly",
    "@daily",
    "@midnight",
    "@hourly",
];

pub(super) const BLANKS: [&str; 6] = [" ", " ", "\t", "  ", " \t", "\t \t "];

pub(super) const IGNORED: [&[u8]; 8] = [
    b"",
    b" ",
    b"\t \t",
    b"#",
    b"# run five minutes after midnight, every day",
    b"  \t# 60 60 60 60 60",
    b"#@unknown\t",
    b"#\xff\x80\x9f~",
];

const SETTINGS: [&[u8]; 19] = [
    b"MAILTO=paul",
    b"MAILTO=\"\"",
    b"MAILTO=''",
    b"MAILTO=",
    b"MAILTO= \t ",
    b"SHELL = /bin/sh",
    b"PATH=/bin:/usr/bin  \t",
    b"\"a name\" = ' a value ' \t",
    b"'a \"name\"'=\"it's\"",
    b"\"=\"==",
    b"a=b=c",
    b"a=b\"",
    b"a=b'c'd",
    b"#=1",
    b"-=-",
    b"a\x80=\x80",
    b"\xe9t\xe9\t=\tno\xebl",
    b"\xa0=\x9f",
    b"%=\\%",
];

const COMMANDS: [&[u8]; 18] = [
    b"a",
    b"/path/to/command",
    b"$HOME/bin/daily.job >> $HOME/tmp/out 2>&1",
    b"mailx john%Happy Birthday!%Time for lunch.",
    b"mail -s \"It's 10pm\" joe%Joe,%%Where are your kids?%",
    b"a\\%b%c%%d%",
    b"%",
    b"%%",
    b"a%",
    b"\\",
    b"\\%",
    b"\\\\%",
    b"a \t ",
    b"a\xa0",
    b"\xff\x80\x9f%~",
    b"= '\"",
    b"# no comment",
    b"* * * * * * @daily",
];

const UNKNOWN_WORDS: [&str; 9] = [
    "@",
    "@Daily",
    "@reboo",
    "@reboots",
    "@every_minute",
    "@reboot%x",
    "@@daily",
    "@~",
    "@daily\u{a0}",
];

const BAD_SETTINGS: [&[u8]; 16] = [
    b"a",
    b"a b=c",
    b"=a",
    b"= ",
    b"\"\"=a",
    b"''=a",
    b"\"a=b",
    b"'a\"=b",
    b"\"a\"b=c",
    b"a\"b=c",
    b"a\"=c",
    b"a='",
    b"a=\"b'",
    b"a=\"b\"c",
    b"a='b' #",
    b"\xa0",
];

const BAD_FORMS: [&str; 33] = [
    "*,5",
    "5,*",
    "5/2",
    "*/",
    "*/00000",
    "*/1/2",
    "**",
    "5,",
    ",5",
    "5,,6",
    "5-",
    "-5",
    "5-6-7",
    "5-6/",
    "5--6",
    "00005",
    "5-00006",
    "5-6/00001",
    "5x",
    "x",
    "5.",
    "mon-fry",
    "jan,febr",
    "sund",
    "su",
    "mon/2",
    "*/mon",
    "5-6/x",
    "5\u{a0}",
    "+5",
    "*-5",
    "*/-1",
    "0x5",
];

/// What a name in a user column starts with, and what it goes on with.
const NAME_STARTS: &[u8] = b"abcxyzABCXYZ0189_.";
const NAME_REST: &[u8] = b"abcxyzABCXYZ0189_.--";

/// No name has these, of which many stand beside those that it has.
const NO_NAME: &[u8] = b"!\"#$%&'()*+,;<=>?@[\\]^`{|}~\x80\xaa\xc3\xe9\xff";

const BAD_USER_COLUMNS: [&str; 29] = [
    ":",
    "/",
    "-",
    "::",
    ":/",
    "/:",
    "//",
    "a:",
    "a/",
    ":a",
    "/a",
    "a::b",
    "a//b",
    "a:b:c",
    "a/b/c",
    "a/c:b",
    "a:b/c:d",
    "a:b/c/d",
    "a:/c",
    "a:b/",
    ":b/c",
    "-a",
    "--",
    "a:-b",
    "a/-c",
    "a:b/-c",
    "[UserName]",
    "$HOME/bin",
    "caf\u{e9}",
];

/// The bytes that mean something somewhere, and some that never do.
const BYTES: &[u8] =
    b"   \t\t\n\n\n\r\0%%\\\\\"'=#**@,,--//::0123456789+.abcJANsunFri_\x01\x0b\x0c\x7f\x80\xff";

/// What no line has, but for byte 0.
const CONTROL_BYTES: &[u8] =
    b"\x01\x02\x03\x04\x05\x06\x07\x08\x0b\x0c\r\r\r\x0e\x0f\x10\x11\x12\x13\x14\x15\x16\x17\x18\x19\x1a\x1b\x1c\x1d\x1e\x1f\x7f";

/// A good table of so many lines.
pub fn table(random: &mut Random, rules: impl Into<Rules>, lines: u64) -> Vec<u8> {
    let rules = rules.into();
    let ended = |_| [line(random, rules), b"\n".to_vec()].concat();
    (0..lines).flat_map(ended).collect()
}

/// A table of so many lines that lacks its last newline and is good otherwise; its last line isn't empty.
pub fn cut_table(random: &mut Random, rules: impl Into<Rules>, lines: u64) -> Vec<u8> {
    let rules = rules.into();
    let mut bytes = table(random, rules, lines - 1);
    let mut last = line(random, rules);
    if last.is_empty() {
        last.push(b'#');
    }
    bytes.extend(last);
    bytes
}

/// A good line: an entry more often than not.
pub fn line(random: &mut Random, rules: impl Into<Rules>) -> Vec<u8> {
    let Rules { kind, dialect } = rules.into();
    let mut line = match random.below(3) {
        0 => random.pick(&BLANKS).into(),
        _ => Vec::new(),
    };
    match random.below(8) {
        0 => line.extend(random.pick(&IGNORED)),
        1 => match random.below(3) {
            0 => line.extend(offsets::any_line(random).bytes()),
            _ => line.extend(random.pick(&SETTINGS)),
        },
        2 => {
            line.extend(random.pick(&WORDS).bytes());
            line.extend(random.pick(&BLANKS).bytes());
            line.extend(after_time(random, kind));
        }
        _ => {
            for field in fields_of(random, dialect) {
                line.extend(field.bytes());
                line.extend(random.pick(&BLANKS).bytes());
            }
            line.extend(after_time(random, kind));
        }
    }
    line
}

/// Five good fields of the first dialect.
pub fn fields(random: &mut Random) -> [String; 5] {
    fields_of(random, Dialect::Rising)
}

/// Five good fields.
pub fn fields_of(random: &mut Random, dialect: Dialect) -> [String; 5] {
    [0, 1, 2, 3, 4].map(|which| field(random, dialect, which))
}

/// A good field.
pub fn field(random: &mut Random, dialect: Dialect, which: usize) -> String {
    match random.below(8) {
        0..=2 => "*".into(),
        3 => {
            let step = step(random);
            format!("*/{step}")
        }
        4 if !NAMES[which].is_empty() => random.pick(NAMES[which]).into(),
        _ => {
            let count = 1 + random.below(3);
            let elements = (0..count).map(|_| element(random, dialect, which));
            elements.collect::<Vec<String>>().join(",")
        }
    }
}

/// The ends of a range rise in the first dialect, and are any in the second.
fn element(random: &mut Random, dialect: Dialect, which: usize) -> String {
    let (first, last) = limits(dialect)[which];
    let mut ends = [(); 2].map(|_| first + random.below(last - first + 1));
    if dialect == Dialect::Rising {
        ends.sort();
    }
    let [low, high] = ends.map(|end| written(random, which, end));
    match random.below(4) {
        0 | 1 => low,
        2 => format!("{low}-{high}"),
        _ => {
            let step = step(random);
            format!("{low}-{high}/{step}")
        }
    }
}

fn step(random: &mut Random) -> String {
    let step = match random.below(4) {
        0 => 1 + random.below(9_999),
        _ => 1 + random.below(12),
    };
    digits(random, step)
}

/// A value of a field, as a number or by its name. Whichever ends of a good range are names, it is good.
fn written(random: &mut Random, which: usize, value: u64) -> String {
    let names = NAMES[which];
    if names.is_empty() || random.below(2) == 0 {
        return digits(random, value);
    }
    let place = (value - LIMITS[which].0) as usize;
    names[place % names.len()].into()
}

/// A number, perhaps with zeros before it, in one to four digits.
pub(super) fn digits(random: &mut Random, number: u64) -> String {
    match random.below(6) {
        0 => format!("{number:04}"),
        1 => format!("{number:02}"),
        _ => number.to_string(),
    }
}

/// What follows the time and its blanks: in a system table a user column, and a command.
fn after_time(random: &mut Random, kind: Kind) -> Vec<u8> {
    let mut text = Vec::new();
    if kind == Kind::System {
        text.extend(user_column(random).bytes());
        text.extend(random.pick(&BLANKS).bytes());
    }
    text.extend(command(random));
    text
}

/// A good user column.
pub fn user_column(random: &mut Random) -> String {
    let mut column = name(random);
    for mark in [":", "/"] {
        if random.below(2) == 0 {
            column += mark;
            column += &name(random);
        }
    }
    column
}

/// A name of one to as many bytes as may be.
fn name(random: &mut Random) -> String {
    let length = match random.below(6) {
        0 => NAME_BYTES,
        1 => 1 + random.below(NAME_BYTES as u64) as usize,
        _ => 1 + random.below(6) as usize,
    };
    name_of(random, length)
}

fn name_of(random: &mut Random, length: usize) -> String {
    let rest = (1..length)
        .map(|_| random.pick(NAME_REST))
        .collect::<Vec<u8>>();
    let bytes = [&[random.pick(NAME_STARTS)], &rest[..]].concat();
    bytes.into_iter().map(char::from).collect()
}

/// A malformed user column.
pub fn bad_user_column(random: &mut Random) -> Vec<u8> {
    if random.below(3) == 0 {
        return random.pick(&BAD_USER_COLUMNS).into();
    }
    // One of the names that it has isn't one.
    let marks = random.pick(&["", ":", "/", ":/"]);
    let bad = random.below(marks.len() as u64 + 1) as usize;
    let mut column = Vec::new();
    for part in 0..=marks.len() {
        if part > 0 {
            column.push(marks.as_bytes()[part - 1]);
        }
        match part == bad {
            true => column.extend(bad_name(random)),
            false => column.extend(name(random).bytes()),
        }
    }
    // Nothing at all is no column.
    match column.is_empty() {
        true => b"-".to_vec(),
        false => column,
    }
}

fn bad_name(random: &mut Random) -> Vec<u8> {
    let mut bytes = name(random).into_bytes();
    match random.below(5) {
        0 => Vec::new(),
        1 => {
            let length = NAME_BYTES + 1 + random.below(3) as usize;
            name_of(random, length).into_bytes()
        }
        2 => {
            bytes[0] = b'-';
            bytes
        }
        _ => {
            let at = random.below(bytes.len() as u64) as usize;
            bytes[at] = random.pick(NO_NAME);
            bytes
        }
    }
}

fn command(random: &mut Random) -> Vec<u8> {
    match random.below(3) {
        0 => {
            // Its first byte isn't blank.
            let length = random.below(12);
            let rest = (0..length).map(|_| random.pick(b"%%\\\\ab \t\"'"));
            [b'c'].into_iter().chain(rest).collect()
        }
        _ => random.pick(&COMMANDS).into(),
    }
}

/// A bad line, the number of its refusal, and its column.
pub type BadLine = (Vec<u8>, u64, u64);

pub fn bad_line(random: &mut Random, rules: impl Into<Rules>) -> BadLine {
    let rules = rules.into();
    match random.below(11) {
        0 => long_line(random, rules),
        1 => line_with_zero(random, rules),
        10 => line_with_control(random, rules),
        2 => cut_line(random, rules, 4),
        3 => cut_line(random, rules, 9),
        4 => {
            let rest = random.pick(&["", " ", " a", "\tb"]);
            let text = random.pick(&UNKNOWN_WORDS).to_string() + rest;
            indented(random, text.as_bytes(), 10, 0)
        }
        5 if random.below(2) == 0 => {
            let (text, before) = offsets::bad_line(random);
            indented(random, text.as_bytes(), 25, before)
        }
        5 => {
            let setting = random.pick(&BAD_SETTINGS);
            indented(random, setting, 11, 0)
        }
        6 | 7 if rules.kind == Kind::System => line_with_bad_user_column(random, rules.dialect),
        _ => line_with_bad_field(random, rules.dialect),
    }
}

/// A bad line perhaps with blanks before it, and so many of its own bytes before the place.
fn indented(random: &mut Random, text: &[u8], number: u64, before: usize) -> BadLine {
    let indent = random.pick(&["", "", "", " ", "\t", " \t "]);
    let column = (indent.len() + before + 1) as u64;
    ([indent.as_bytes(), text].concat(), number, column)
}

fn long_line(random: &mut Random, rules: Rules) -> BadLine {
    let mut line = line(random, rules);
    let length = 1_001 + random.below(3) as usize;
    line.resize(length, random.pick(b"a\0 #5"));
    (line, 2, 1_001)
}

fn line_with_zero(random: &mut Random, rules: Rules) -> BadLine {
    let mut line = line(random, rules);
    let before = random.below(line.len() as u64 + 1);
    line.insert(before as usize, 0);
    (line, 3, before + 1)
}

/// A control byte somewhere, perhaps with others behind it; a byte 0, before it or behind, comes first.
fn line_with_control(random: &mut Random, rules: Rules) -> BadLine {
    let mut line = line(random, rules);
    let before = random.below(line.len() as u64 + 1) as usize;
    let behind = random.below((line.len() - before) as u64 + 1) as usize;
    line.insert(before + behind, random.pick(CONTROL_BYTES));
    line.insert(before, random.pick(CONTROL_BYTES));
    if random.below(4) > 0 {
        return (line, 27, before as u64 + 1);
    }
    let zero = random.below(line.len() as u64 + 1);
    line.insert(zero as usize, 0);
    (line, 3, zero + 1)
}

/// An entry that ends too early: with fewer than five fields (4), or without a command (9), perhaps after its user.
fn cut_line(random: &mut Random, rules: Rules, number: u64) -> BadLine {
    let mut text = match number {
        4 => {
            let count = 1 + random.below(4) as usize;
            fields_of(random, rules.dialect)[..count].join(random.pick(&BLANKS))
        }
        _ => time(random, rules.dialect),
    };
    if number == 9 && rules.kind == Kind::System && random.below(3) > 0 {
        text += random.pick(&BLANKS);
        text += &user_column(random);
    }
    text += random.pick(&["", " ", "\t "]);
    indented(random, text.as_bytes(), number, text.len())
}

/// Five good fields, or an `@` word.
fn time(random: &mut Random, dialect: Dialect) -> String {
    match random.below(2) {
        0 => random.pick(&WORDS).into(),
        _ => fields_of(random, dialect).join(random.pick(&BLANKS)),
    }
}

/// What comes after the column doesn't count.
fn line_with_bad_user_column(random: &mut Random, dialect: Dialect) -> BadLine {
    let before = time(random, dialect) + random.pick(&BLANKS);
    let rest = random.pick(&["", " ", " a", "\ta%b", " root a"]);
    let text = [before.as_bytes(), &bad_user_column(random), rest.as_bytes()].concat();
    indented(random, &text, 20, before.len())
}

fn line_with_bad_field(random: &mut Random, dialect: Dialect) -> BadLine {
    let mut fields = fields_of(random, dialect);
    let which = random.below(5) as usize;
    let (text, number, offset) = bad_field(random, dialect, which);
    fields[which] = text;
    // Only a digit or a star starts an entry.
    if !fields[0].starts_with(|first: char| first == '*' || first.is_ascii_digit()) {
        fields[0].insert(0, '*');
    }
    let before: usize = fields[..which].iter().map(|field| field.len() + 1).sum();
    // What comes after the bad field doesn't count.
    let kept = random.pick(&[which + 1, 5, 5]);
    let rest = random.pick(&["", " ", " a", "\ta%b"]);
    let text = fields[..kept].join(" ") + rest;
    indented(random, text.as_bytes(), number, before + offset)
}

/// A bad field, the number of its refusal, and how many of its bytes stand before the place.
fn bad_field(random: &mut Random, dialect: Dialect, which: usize) -> (String, u64, usize) {
    let (first, last) = limits(dialect)[which];
    let mut text = String::new();
    for _ in 0..random.below(3) {
        text += &element(random, dialect, which);
        text.push(',');
    }
    let offset = text.len();
    let low = first + random.below(last - first);
    let above = last + 1 + random.below(9_999 - last);
    let reversed = match dialect {
        Dialect::Rising => 7,
        Dialect::Wrapping => 8,
    };
    let (element, number) = match random.below(7) {
        0 | 1 => return (random.pick(&BAD_FORMS).into(), 5, 0),
        2 if first > 0 && random.below(2) == 0 => ("0".into(), 6),
        2 => (above.to_string(), 6),
        3 => (format!("{low}-{above}/0"), 6),
        4 => (format!("{}-{low}/0", low + 1), reversed),
        5 => return ("*/0000".into(), 8, 0),
        _ => (format!("{low}-{}/00", low + 1), 8),
    };
    text += &element;
    // A later bad element doesn't count.
    text += random.pick(&["", ",9999", ",3-2", ",1-2/0"]);
    (text, number, offset)
}

/// A table with some of its bytes changed, taken out, put in or put in twice.
pub fn mutated(random: &mut Random, table: &[u8]) -> Vec<u8> {
    let mut bytes = table.to_vec();
    for _ in 0..1 + random.below(3) {
        let at = random.below(bytes.len() as u64 + 1) as usize;
        let byte = match random.below(8) {
            0 => random.number() as u8,
            _ => random.pick(BYTES),
        };
        let until = bytes.len().min(at + random.below(6) as usize);
        match random.below(6) {
            0 | 1 => bytes.insert(at, byte),
            2 if at < bytes.len() => bytes[at] = byte,
            3 => drop(bytes.drain(at..until)),
            4 => {
                let again = bytes[at..until].to_vec();
                bytes.splice(at..at, again);
            }
            _ => {
                if at < bytes.len() {
                    bytes.remove(at);
                }
            }
        }
    }
    bytes
}

/// Any bytes of those that mean something.
pub fn noise(random: &mut Random, length: u64) -> Vec<u8> {
    (0..length).map(|_| random.pick(BYTES)).collect()
}

/// The schedule of an entry with these five fields.
pub fn schedule_of(fields: &str) -> Schedule {
    let line = format!("{fields} a\n");
    let table = read(line.as_bytes(), Kind::User).expect("a good table");
    match table.entries[0].when {
        When::Times(schedule) => schedule,
        When::Reboot => panic!("{fields} has no times"),
    }
}
