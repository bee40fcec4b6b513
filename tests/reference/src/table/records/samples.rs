//! Records for the comparisons: good ones, some with such as a later writer may add, and damaged ones.

use super::{compiled, first, number, word};
use crate::random::Random;
use crate::table::normal;

/// The records of a good table of so many lines.
pub fn good(random: &mut Random, lines: u64) -> Vec<u8> {
    let table = normal::samples::table(random, lines);
    compiled(&table).expect("a short table")
}

/// Whole records, one by one, up to one that is cut short.
pub fn apart(mut records: &[u8]) -> Vec<&[u8]> {
    let mut apart = Vec::new();
    while let Some((one, rest)) = first(records) {
        apart.push(one);
        records = rest;
    }
    apart
}

/// A record of a kind and a body of at most 65,533 bytes.
pub fn record(kind: u16, body: &[u8]) -> Vec<u8> {
    [&word(2 + body.len())[..], &kind.to_le_bytes(), body].concat()
}

/// A record that today's reader skips.
pub fn later(random: &mut Random) -> Vec<u8> {
    let kind = match random.below(4) {
        0 => random.pick(&[0x8000, 0x8001, 0x8002, 0x8003, 0xffff]),
        _ => 0x8000 | random.number() as u16,
    };
    let length = match random.below(50) {
        0 => random.below(65_534),
        _ => random.below(30),
    };
    let body: Vec<u8> = (0..length).map(|_| random.number() as u8).collect();
    record(kind, &body)
}

/// Whole records with later ones before, between and behind them.
pub fn with_later(random: &mut Random, records: &[u8]) -> Vec<u8> {
    let mut mixed = Vec::new();
    for one in apart(records).into_iter().chain([&[][..]]) {
        for _ in 0..random.below(4).saturating_sub(1) {
            mixed.extend(later(random));
        }
        mixed.extend(one);
    }
    mixed
}

/// Bytes that mean something in a record.
const BYTES: &[u8] = b"\0\x01\x02\x03\x04\x7f\x80\xff\x1f\x20\n\t\"'=*@#1a";

/// Records damaged once, and now and then once more.
pub fn damaged(random: &mut Random, mut records: Vec<u8>) -> Vec<u8> {
    loop {
        records = match random.below(3) {
            0 => damaged_record(random, &records),
            _ => damaged_bytes(random, records),
        };
        if random.below(4) > 0 {
            return records;
        }
    }
}

/// A damage to any bytes.
fn damaged_bytes(random: &mut Random, mut bytes: Vec<u8>) -> Vec<u8> {
    let at = random.below(bytes.len() as u64 + 1) as usize;
    let some = random.below(8) as usize;
    let until = bytes.len().min(at + some);
    match random.below(8) {
        0..=2 if at < bytes.len() => bytes[at] ^= 1 << random.below(8),
        3 | 4 if at < bytes.len() => bytes[at] = random.pick(BYTES),
        5 => bytes.truncate(at),
        6 => drop(bytes.drain(at..until)),
        _ => {
            let more: Vec<u8> = (0..some).map(|_| random.pick(BYTES)).collect();
            bytes.splice(at..at, more);
        }
    }
    bytes
}

/// A damage to one of the records as a whole, the others staying as they are: to its length, its kind or its body.
fn damaged_record(random: &mut Random, records: &[u8]) -> Vec<u8> {
    let mut apart: Vec<Vec<u8>> = apart(records).iter().map(|one| one.to_vec()).collect();
    if apart.is_empty() {
        return later(random);
    }
    let at = random.below(apart.len() as u64) as usize;
    let one = &mut apart[at];
    let kind = number(&one[2..]).expect("a kind");
    let body = one[4..].to_vec();
    match random.below(6) {
        0 => one[random.below(2) as usize] = random.number() as u8,
        1 => *one = record(random.below(6) as u16, &body),
        2 => *one = record(1 << random.below(16), &body),
        3 => {
            let other = one.clone();
            apart.insert(random.below(at as u64 + 1) as usize, other);
        }
        _ => *one = record(kind, &damaged_bytes(random, body)),
    }
    apart.concat()
}
