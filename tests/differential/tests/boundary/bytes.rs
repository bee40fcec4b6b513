//! Bytes of every kind: any at all, those that mean something, good tables, and good tables damaged.

use differential::samples::ended;
use reference::random::Random;
use reference::table::documents::{ENTRIES, SETTINGS, SYSTEM_ENTRIES};
use reference::table::{samples, Kind, Rules};

/// So many bytes, each as likely as another.
pub fn any(random: &mut Random, length: usize) -> Vec<u8> {
    (0..length).map(|_| random.number() as u8).collect()
}

/// A table of some lines or some bytes, of a kind and a dialect: good or not.
pub fn table(random: &mut Random, rules: Rules) -> Vec<u8> {
    let length = random.below(60);
    match random.below(16) {
        0 => any(random, length as usize),
        1 | 2 => samples::noise(random, length),
        3..=5 => {
            let start = random.pick(&STARTS);
            [start.as_bytes(), &samples::noise(random, length)].concat()
        }
        6 => {
            let (line, _, _) = samples::bad_line(random, rules);
            [good(random, rules), line].join(&b'\n')
        }
        7 => good(random, rules),
        _ => {
            let table = good(random, rules);
            damaged(random, table)
        }
    }
}

/// How a line may start well.
const STARTS: [&str; 12] = [
    "* ",
    "1 1 1 1 1 ",
    "a=",
    "\"",
    "@",
    "5,",
    "* * * * ",
    "@daily a:",
    "@daily a/",
    "* * * * * a:b/",
    "CRON_TZ=",
    "CRON_TZ = \"-0",
];

/// A good table, or one of lines that stand in the documents.
fn good(random: &mut Random, rules: Rules) -> Vec<u8> {
    let lines = random.below(5);
    match random.below(3) {
        0 => {
            let line = |random: &mut Random| match random.below(4) {
                0 => random.pick(&SETTINGS).0.as_bytes(),
                _ if rules.kind == Kind::System => random.pick(&SYSTEM_ENTRIES).0.as_bytes(),
                _ => random.pick(&ENTRIES).0.as_bytes(),
            };
            let lines: Vec<&[u8]> = (0..lines).map(|_| line(random)).collect();
            ended(lines.join(&b'\n'))
        }
        _ => samples::table(random, rules, lines),
    }
}

/// Bytes damaged once in one of the ways in which files are.
fn damaged(random: &mut Random, mut bytes: Vec<u8>) -> Vec<u8> {
    let at = random.below(bytes.len() as u64 + 1) as usize;
    let some = random.below(8) as usize;
    let until = bytes.len().min(at + some);
    match random.below(8) {
        0 | 1 => return samples::mutated(random, &bytes),
        // a bit is flipped
        2 if at < bytes.len() => bytes[at] ^= 1 << random.below(8),
        // the end is missing, or the start is
        3 => bytes.truncate(at),
        4 => drop(bytes.drain(..at)),
        // some bytes more, and some that are 0
        5 => drop(bytes.splice(at..at, any(random, some))),
        6 => bytes[at..until].fill(0),
        _ => double_a_line(random, &mut bytes),
    }
    bytes
}

fn double_a_line(random: &mut Random, bytes: &mut Vec<u8>) {
    let lines: Vec<&[u8]> = bytes.split_inclusive(|&byte| byte == b'\n').collect();
    if lines.is_empty() {
        return;
    }
    let at = random.below(lines.len() as u64) as usize;
    let both = [&lines[..=at], &lines[at..]].concat();
    *bytes = both.concat();
}
