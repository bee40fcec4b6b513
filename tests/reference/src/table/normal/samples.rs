//! Tables for what is written back: the same meaning in other words, settings that need quotes, and lines and tables that
//! are longer when they are written.

use super::{item, meaning, text, values, ways, Item};
use crate::random::Random;
use crate::table::samples::{digits, line, BLANKS, IGNORED, LIMITS, NAMES, WORDS};
use crate::table::{Kind, When, LINE_BYTES, TABLE_BYTES};

/// The bytes that decide how a name or a value is written.
const OF_SETTINGS: &[u8] = b"aaB1*@#= \t\"'-\\%~\x80";

/// Times, most of which are longer when they are written.
const TIMES: [&str; 12] = [
    "@daily",
    "@yearly",
    "@weekly",
    "0-59 * * * *",
    "0-59 0-23 1-31 1-12 0-7",
    "0-59/2 0-23/2 1-31/3 jan-dec sun-sat",
    "*/7 0-23 */31 * mon-sun",
    "*/60 */24 */31 */12 */7",
    "10-59 10-23 10-31 10-12 *",
    "* * * * *",
    "59 23 31 12 6",
    "@reboot",
];

/// A good user table of so many lines, with more settings and longer lists than other tables have.
pub fn table(random: &mut Random, lines: u64) -> Vec<u8> {
    let line = |random: &mut Random| match random.below(4) {
        0 => setting(random),
        1 => timed(random),
        _ => line(random, Kind::User),
    };
    let ended = |_| [line(random), b"\n".to_vec()].concat();
    (0..lines).flat_map(ended).collect()
}

/// A good setting of such bytes as matter.
fn setting(random: &mut Random) -> Vec<u8> {
    loop {
        let [name, value] = [(); 2].map(|_| {
            let length = random.below(7);
            let bytes: Vec<u8> = (0..length).map(|_| random.pick(OF_SETTINGS)).collect();
            let quote = random.pick(&["", "\"", "'"]).as_bytes();
            [quote, &bytes, quote].concat()
        });
        let line = [&name[..], b"=", &value].concat();
        if let Some(Item::Setting { .. }) = item(&line) {
            return line;
        }
    }
}

fn timed(random: &mut Random) -> Vec<u8> {
    let time = random.pick(&TIMES);
    let blanks = random.pick(&BLANKS);
    format!("{time}{blanks}a").into()
}

/// An entry whose line has so many bytes when it is written; before, it has as many or fewer. None if the time alone is longer.
pub fn written_in(random: &mut Random, length: usize) -> Option<Vec<u8>> {
    let start = [random.pick(&TIMES).as_bytes(), b" "].concat();
    let one = [&start[..], b"c"].concat();
    let written = item(&one).expect("an entry").text().len();
    let rest = length.checked_sub(written)?;
    let command = (0..rest).map(|_| random.pick(b"ab %\\\"'#"));
    let line: Vec<u8> = one.into_iter().chain(command).collect();
    (line.len() <= LINE_BYTES).then_some(line)
}

/// A table whose text has so many bytes, in long lines; itself it has no more than a table may have, and so the text can
/// have few more.
pub fn table_written_in(random: &mut Random, length: usize) -> Vec<u8> {
    loop {
        let table = lines_written_in(random, length);
        if table.len() <= TABLE_BYTES {
            return table;
        }
    }
}

fn lines_written_in(random: &mut Random, length: usize) -> Vec<u8> {
    let mut lines = Vec::new();
    let mut left = length;
    while left > 0 {
        // The last two lines share what is left, so that either has room for a time.
        let next = match left - 1 {
            rest if rest <= LINE_BYTES => rest,
            rest if rest < LINE_BYTES + 100 => LINE_BYTES - 100,
            _ => LINE_BYTES,
        };
        if let Some(line) = written_in(random, next) {
            lines.extend(line);
            lines.push(b'\n');
            left -= next + 1;
        }
    }
    lines
}

/// Another table that means the same.
pub fn respelled(random: &mut Random, items: &[Item]) -> Vec<u8> {
    let mut table = Vec::new();
    for item in items {
        ignored(random, &mut table);
        let blanks = random.pick(&["", "", " ", "\t "]);
        let line = match item {
            Item::Setting { name, value } => respelled_setting(random, name, value),
            Item::Entry { when, command } => respelled_entry(random, *when, command),
        };
        let line = [blanks.as_bytes(), &line].concat();
        match line.len() <= LINE_BYTES {
            true => table.extend(line),
            false => table.extend(item.text()),
        }
        table.push(b'\n');
    }
    ignored(random, &mut table);
    match meaning(&table).as_deref() == Ok(items) {
        true => table,
        // Only because it is too long.
        false => {
            assert!(table.len() > TABLE_BYTES, "{}", table.escape_ascii());
            text(items)
        }
    }
}

fn ignored(random: &mut Random, table: &mut Vec<u8>) {
    for _ in 0..random.below(5).saturating_sub(2) {
        table.extend(random.pick(&IGNORED));
        table.push(b'\n');
    }
}

fn respelled_setting(random: &mut Random, name: &[u8], value: &[u8]) -> Vec<u8> {
    let meant = Some(Item::Setting { name, value });
    loop {
        let [name, value] = [name, value].map(|text| {
            let ways: Vec<Vec<u8>> = ways(text).collect();
            ways[random.below(3) as usize].clone()
        });
        let [before, behind, end] =
            [(); 3].map(|_| random.pick(&["", "", " ", "\t", " \t "]).as_bytes());
        let line = [&name, before, b"=", behind, &value, end].concat();
        if item(&line) == meant {
            return line;
        }
    }
}

fn respelled_entry(random: &mut Random, when: When, command: &[u8]) -> Vec<u8> {
    let mut line = respelled_time(random, when);
    line += random.pick(&BLANKS);
    [line.as_bytes(), command].concat()
}

fn respelled_time(random: &mut Random, when: When) -> String {
    let is_meant = |word: &&str| {
        let line = format!("{word} a");
        matches!(item(line.as_bytes()), Some(Item::Entry { when: of, .. }) if of == when)
    };
    let words: Vec<&str> = WORDS.into_iter().filter(is_meant).collect();
    let schedule = match when {
        When::Times(schedule) if words.is_empty() || random.below(2) == 0 => schedule,
        _ => return random.pick(&words).into(),
    };
    let sets = schedule.numbers();
    let mut time = String::new();
    for (which, &set) in sets[..5].iter().enumerate() {
        time += match which {
            0 => "",
            _ => random.pick(&BLANKS),
        };
        time += &match schedule.stars[which] {
            true => respelled_star(random, which, set),
            false => respelled_list(random, which, set),
        };
    }
    time
}

/// A star with any step that gives the set.
fn respelled_star(random: &mut Random, which: usize, set: u64) -> String {
    loop {
        let step = match random.below(2) {
            0 => 1 + random.below(60),
            _ => 1 + random.below(9_999),
        };
        let text = match random.below(60) {
            0 => "*".into(),
            _ => format!("*/{}", digits(random, step)),
        };
        if values(which, &text) == Some(set) {
            return text;
        }
    }
}

/// Numbers, names and ranges in any order that give the set.
fn respelled_list(random: &mut Random, which: usize, set: u64) -> String {
    let (first, last) = LIMITS[which];
    let is_weekday = which == 4;
    // Sunday is 7, too.
    let set = if is_weekday {
        set | (set & 1) << 7
    } else {
        set
    };
    let has = |value: u64| value <= last && set >> value & 1 == 1;
    let mut elements: Vec<String> = Vec::new();
    let mut left = set;
    while left != 0 {
        let low = first + random.below(last + 1 - first);
        if left >> low & 1 == 0 && random.below(8) > 0 || !has(low) {
            continue;
        }
        let step = 1 + random.below(4);
        let reach = (1..).take_while(|more| has(low + more * step)).count() as u64;
        let high = low + step * random.below(reach + 1);
        elements.push(respelled_element(random, which, [low, high, step]));
        for value in (low..=high).step_by(step as usize) {
            left &= !(1 << value);
        }
        if is_weekday && left & 0x81 != 0x81 {
            left &= !0x81;
        }
    }
    for place in (1..elements.len()).rev() {
        elements.swap(place, random.below(place as u64 + 1) as usize);
    }
    elements.join(",")
}

/// `low-high/step`, and less where that means the same.
fn respelled_element(random: &mut Random, which: usize, [low, high, step]: [u64; 3]) -> String {
    let names = NAMES[which];
    let named = |random: &mut Random, value: u64| {
        let place = (value - LIMITS[which].0) as usize;
        match names.get(place) {
            Some(name) if random.below(2) == 0 => name.to_string(),
            _ => digits(random, value),
        }
    };
    let from = named(random, low);
    if low == high && random.below(4) > 0 {
        return from;
    }
    let from_sunday = from.eq_ignore_ascii_case("sun");
    // `sun` is 7 at the upper end, or else 0.
    let to = match (which, high) {
        (4, 7) if !from_sunday && random.below(2) == 0 => "sUN".into(),
        (4, 0) if from_sunday && random.below(2) == 0 => "Sun".into(),
        (4, 0 | 7) => digits(random, high),
        _ => named(random, high),
    };
    match step {
        1 if random.below(2) == 0 => format!("{from}-{to}"),
        _ => format!("{from}-{to}/{}", digits(random, step)),
    }
}
