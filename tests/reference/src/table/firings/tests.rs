//! The lists beside what the ticket says, minute by minute.

use super::*;
use crate::random::Random;
use crate::schedule::samples::start;
use crate::table::{samples, Rules};

/// Every minute of a span, and at each every entry in order.
fn asked(calls: &Calls, a: u64, b: u64) -> Vec<Firing> {
    let table = calls.good().expect("a good table");
    let entries = || table.entries.iter().enumerate();
    (a + 1..=b)
        .flat_map(|minute| {
            let due = entries().filter(move |(_, entry)| entry.matches(minute));
            due.map(move |(number, _)| (minute as u32, number as u16))
        })
        .collect()
}

#[test]
fn lists_are_what_every_minute_says() {
    let mut random = Random::seeded();
    let mut cut = 0;
    for _ in 0..2_000 {
        let rules = random.pick(&Rules::ALL);
        let lines = random.below(6);
        let table = samples::table(&mut random, rules, lines);
        let calls = Calls::of(&table, rules);
        if calls.good().is_err() {
            continue;
        }
        let a = start(&mut random).min(LAST_MINUTE);
        let b = LAST_MINUTE.min(a + random.below(2_000));
        let all = asked(&calls, a, b);
        let rooms = [(); 2].map(|_| random.below(all.len() as u64 + 3) as usize);
        let room = rooms[0].min(rooms[1]);
        let expected = fitting(all.clone(), room);
        cut += usize::from(expected.1);
        assert_eq!(calls.merged_firings(a, b, rooms), Ok(expected));
        for entry in 0..calls.check().expect("a count") {
            let own = all.iter().filter(|(_, number)| u64::from(*number) == entry);
            let own: Vec<u32> = own.map(|(minute, _)| *minute).collect();
            let listed = calls.firings(entry, a, b, room);
            match listed {
                Err(refusal) => assert_eq!((refusal, own.len()), (NEXT_OF_REBOOT, 0)),
                Ok(listed) => assert_eq!(listed, fitting(own, room)),
            }
        }
    }
    assert!(cut > 100, "{cut} lists were cut");
}

#[test]
fn arguments_are_digits_of_64_bits() {
    let good: [(&[u8], u64); 5] = [
        (b"0", 0),
        (b"00", 0),
        (b"0000000000000000000000007", 7),
        (b"18446744073709551615", u64::MAX),
        (b"018446744073709551615", u64::MAX),
    ];
    for (text, value) in good {
        assert_eq!(number(text), Some(value), "{}", text.escape_ascii());
    }
    let bad: [&[u8]; 9] = [
        b"",
        b"+1",
        b"-1",
        b"1x",
        b" 1",
        b"1 ",
        b"0x1",
        b"18446744073709551616",
        b"\xc2\xb2",
    ];
    for text in bad {
        assert_eq!(number(text), None, "{}", text.escape_ascii());
    }
}
