//! Settings of `CRON_TZ` for the comparisons, good and bad.

use super::{known, text, EAST, WEST};
use crate::random::Random;

/// The ends and what stands beside them, whole and odd hours, and 0.
pub const OFFSETS: [i64; 21] = [
    WEST,
    WEST + 1,
    -701,
    -660,
    -210,
    -61,
    -60,
    -59,
    -1,
    0,
    1,
    59,
    60,
    330,
    345,
    719,
    720,
    721,
    779,
    EAST - 1,
    EAST,
];

pub fn offset(random: &mut Random) -> i64 {
    match random.below(2) {
        0 => random.pick(&OFFSETS),
        _ => WEST + random.below((EAST - WEST) as u64 + 1) as i64,
    }
}

/// A good setting of any offset.
pub fn any_line(random: &mut Random) -> String {
    let offset = offset(random);
    line(random, offset)
}

/// A good setting of an offset.
pub fn line(random: &mut Random, offset: i64) -> String {
    let value = match offset {
        0 if random.below(2) == 0 => "-00:00".into(),
        _ => text(offset),
    };
    with_value(random, &value).0
}

/// The name, perhaps in quotes, and a value, with blanks anywhere; and how many bytes stand before the value or its quote.
fn with_value(random: &mut Random, value: &str) -> (String, usize) {
    let [name_quote, quote] = [(); 2].map(|_| random.pick(&["", "", "\"", "'"]));
    let [before, behind, end] = [(); 3].map(|_| random.pick(&["", "", " ", "\t", " \t "]));
    let start = format!("{name_quote}CRON_TZ{name_quote}{before}={behind}");
    let line = format!("{start}{quote}{value}{quote}{end}");
    (line, start.len())
}

/// A setting whose value is no offset, and how many bytes stand before its place.
pub fn bad_line(random: &mut Random) -> (String, usize) {
    let value = match random.below(4) {
        0 => random.pick(&known::NO_OFFSETS).trim().into(),
        1 => text(WEST - 1 - random.below(5_000) as i64),
        2 => text(EAST + 1 + random.below(5_000) as i64),
        _ => with_a_bad_byte(random),
    };
    match value.is_empty() {
        // Blanks may stand behind the equals sign, and then the place is behind them.
        true => ("CRON_TZ= \t".into(), "CRON_TZ= \t".len()),
        false => with_value(random, &value),
    }
}

/// A good value with one of its bytes changed to one that can't stand there.
fn with_a_bad_byte(random: &mut Random) -> String {
    let offset = offset(random);
    let mut value = text(offset).into_bytes();
    let at = random.below(value.len() as u64) as usize;
    value[at] = random.pick(b"x.;=#/*@~");
    value.into_iter().map(char::from).collect()
}
