//! Dates, tables and rooms for the comparisons.

use eremothyn::Numbers;
use reference::calendar::LAST_MINUTE;
use reference::queue::room;
use reference::random::Random;
use reference::table::offset::samples as offsets;
use reference::table::{samples, Dialect, Kind, Rules};

/// Year, month, day, hour and minute of a date, each of which may be a little past its limits.
pub fn date(random: &mut Random) -> [u64; 5] {
    let spans = [(1960, 8_050), (0, 14), (0, 33), (0, 25), (0, 61)];
    spans.map(|(first, count)| first + random.below(count))
}

/// Numbers that mean rules; a system table has many, and so has the second dialect.
pub fn numbers(random: &mut Random, rules: impl Into<Rules>) -> Numbers {
    let Numbers { kind, dialect } = rules.into().into();
    Numbers {
        kind: number(random, kind),
        dialect: number(random, dialect),
    }
}

/// Any number but 0 for 1.
fn number(random: &mut Random, meant: u64) -> u64 {
    match (meant, random.below(6)) {
        (0, _) => 0,
        (_, 0) => 1 << random.below(64),
        (_, 1) => random.number() | 1,
        (_, 2) => random.pick(&[2, 255, 1 << 32, u64::MAX]),
        _ => 1,
    }
}

/// Either kind, in either dialect.
pub fn any_rules(random: &mut Random) -> Rules {
    random.pick(&Rules::ALL)
}

/// A text that has `~` where a system table has a user column and a blank, and a user table nothing.
pub fn of_kind(text: &str, rules: impl Into<Rules>) -> String {
    let user = match rules.into().kind {
        Kind::User => "",
        Kind::System => "u:g/l ",
    };
    text.replace('~', user)
}

/// A text as a table: with a newline at its end, unless it is empty.
pub fn ended(text: impl AsRef<[u8]>) -> Vec<u8> {
    let mut table = text.as_ref().to_vec();
    if !matches!(table.last(), None | Some(b'\n')) {
        table.push(b'\n');
    }
    table
}

/// A table of so many entries, each with the time given.
pub fn alike(kind: Kind, time: &str, entries: usize) -> Vec<u8> {
    let line = of_kind(&format!("{time} ~a\n"), kind);
    line.repeat(entries).into_bytes()
}

/// A table of so many entries, some that boot, and some that fire often.
pub fn busy_table(random: &mut Random, rules: impl Into<Rules>, entries: u64) -> Vec<u8> {
    let rules = rules.into();
    let mut table = Vec::new();
    for _ in 0..entries {
        match random.below(10) {
            0 => table.extend(b"# comment\n"),
            1 => table.extend(b"A=b\n"),
            2 => {
                table.extend(offsets::any_line(random).bytes());
                table.push(b'\n');
            }
            _ => {}
        }
        let line = match random.below(8) {
            0 => format!("{} ~a", samples::fields_of(random, rules.dialect).join(" ")),
            _ => format!("{} ~a%b", often(random, rules.dialect)),
        };
        table.extend(of_kind(&line, rules).bytes());
        table.push(b'\n');
    }
    table
}

/// A time that comes often, or at boot.
fn often(random: &mut Random, dialect: Dialect) -> &'static str {
    let own = match dialect {
        Dialect::Rising => ["* * * * 7", "30 0-23 * * *"],
        Dialect::Wrapping => ["* * * * fri-sun", "30 13-12 * * *"],
    };
    let both = [
        "* * * * *",
        "*/2 * * * *",
        "1-59/2 * * * *",
        "*/5 * * * *",
        "0 * * * *",
        "* 0 * * *",
        "0-59 0-23 * * *",
        "0,10,20 1-22/3 * * *",
        "*/5 4 * * *",
        "7 */4 * * *",
        "@hourly",
        "@daily",
        "@reboot",
        "* * 1,15 * 5",
        "0 0 29 2 *",
        "0 0 30 2 *",
        "59 23 31 12 *",
    ];
    match random.below(8) {
        0 => random.pick(&own),
        _ => random.pick(&both),
    }
}

/// Changes one to three bytes of a line, perhaps to numbers of entries or just past them, or else its mark.
pub fn damage(random: &mut Random, room: &mut [u8], entries: u64) {
    let length = room.len() as u64;
    if length == 0 {
        return;
    }
    if random.below(3) == 0 && room.len() >= room::COUNT {
        let mark = mark_bytes(random);
        room[room::MARK..room::COUNT].copy_from_slice(&mark);
        return;
    }
    for _ in 0..1 + random.below(3) {
        let at = random.below(length) as usize;
        room[at] = match random.below(5) {
            0 => random.number() as u8,
            1 => random.below(entries + 2) as u8,
            2 => room[random.below(length) as usize],
            3 => room[at] ^ 1 << random.below(8),
            _ => room[at].wrapping_add(1),
        };
    }
}

/// A mark as a room has it: none, on the calendar, or off it.
fn mark_bytes(random: &mut Random) -> [u8; 4] {
    const LAST: u32 = LAST_MINUTE as u32;
    let ends = [0, 1, 2, LAST, LAST + 1, LAST + 2, LAST + 3, u32::MAX];
    let mark = match random.below(2) {
        0 => random.pick(&ends),
        _ => random.number() as u32,
    };
    mark.to_le_bytes()
}
