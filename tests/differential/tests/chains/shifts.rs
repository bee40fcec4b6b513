//! 400 years later: a start so much later has its answer so much later, where all minutes, the local ones too, are on the
//! calendar.

use crate::{dense, DAY};
use differential::table::Compared;
use reference::calendar::LAST_MINUTE;
use reference::random::Random;
use reference::table::offset::samples::OFFSETS;
use reference::table::offset::text;
use reference::table::{read, Entry, Kind};

/// 400 years in minutes.
const CYCLE: u64 = 210_379_680;

/// Whether a minute and the local one are on the calendar.
fn is_on_both(offset: i64, minute: u64) -> bool {
    let local = minute.checked_add_signed(offset);
    minute <= LAST_MINUTE && local.is_some_and(|local| local <= LAST_MINUTE)
}

/// Whether the ticket's conditions hold of a start and its answer.
fn is_shifting(offset: i64, start: u64, answer: u64) -> bool {
    let minutes = [start, start + CYCLE, answer, answer + CYCLE];
    minutes.into_iter().all(|minute| is_on_both(offset, minute))
}

/// The answers for a start and for the later one, both ways; whether the conditions held.
fn shifts(table: &Compared, number: u64, entry: &Entry, start: u64) -> bool {
    let [answer, later] = [start, start + CYCLE].map(|start| table.next(number, start));
    let mut held = false;
    if let Ok(answer) = answer {
        if is_shifting(entry.offset, start, answer) {
            assert_eq!(later, Ok(answer + CYCLE), "entry {number}, {start}");
            held = true;
        }
    }
    if let Some(back) = later.ok().and_then(|later| later.checked_sub(CYCLE)) {
        if is_shifting(entry.offset, start, back) {
            assert_eq!(answer, Ok(back), "entry {number}, {start}");
            assert!(held);
        }
    }
    // At boot alone and never are so from any start.
    if let Err(refusal @ (15 | 16)) = answer {
        assert_eq!(later, Err(refusal));
    }
    held
}

/// A start that may be shifted, about the ends too.
fn start(random: &mut Random) -> u64 {
    let most = LAST_MINUTE - CYCLE;
    match random.below(4) {
        0 => random.below(2 * DAY),
        1 => most - random.below(2 * DAY),
        _ => random.below(most + 1),
    }
}

#[test]
fn answers_shift_with_their_starts() {
    let mut random = Random::seeded();
    let mut held = 0;
    for _ in 0..1_500 {
        let (bytes, numbers) = dense(&mut random);
        let table = Compared::under(&bytes, numbers);
        let second = read(&bytes, numbers.rules()).expect("a good table");
        for (number, entry) in (0..).zip(&second.entries) {
            for _ in 0..8 {
                let start = start(&mut random);
                held += usize::from(shifts(&table, number, entry, start));
            }
        }
    }
    assert!(held > 10_000, "{held} shifts");
}

/// At both ends, minute by minute, under every sort of clock.
#[test]
fn about_the_ends_of_the_calendar() {
    let most = LAST_MINUTE - CYCLE;
    for offset in OFFSETS {
        let bytes = format!("CRON_TZ={}\n*/7 * * * * a\n0 18 * * * b\n", text(offset));
        let table = Compared::of(bytes.as_bytes());
        let second = read(bytes.as_bytes(), Kind::User).expect("a good table");
        for (number, entry) in (0..).zip(&second.entries) {
            for start in (0..DAY).chain(most - DAY..=most) {
                let _ = shifts(&table, number, entry, start);
            }
        }
    }
}

/// The case where it fails, and the first start from which it holds.
#[test]
fn a_local_start_off_the_calendar() {
    let table = Compared::of(b"CRON_TZ=-12:00\n0 18 * * * a\n");
    assert_eq!(table.next(0, 0), Ok(1_800));
    assert_eq!(table.next(0, CYCLE), Ok(CYCLE + 360));
    assert_eq!(table.next(0, 210_379_680), Ok(210_380_040));
    assert_eq!(table.next(0, 719), Ok(1_800));
    assert_eq!(table.next(0, CYCLE + 719), Ok(CYCLE + 1_800));
    assert_eq!(table.next(0, 720), Ok(1_800));
    assert_eq!(table.next(0, CYCLE + 720), Ok(CYCLE + 1_800));
}

/// The last start that may be shifted, and the first that may not.
#[test]
fn shifted_off_the_calendar() {
    let table = Compared::of(b"* * * * * a\n59 23 31 12 * b\n");
    let most = LAST_MINUTE - CYCLE;
    for entry in [0, 1] {
        assert_eq!(table.next(entry, most - 1), Ok(most));
        assert_eq!(table.next(entry, LAST_MINUTE - 1), Ok(LAST_MINUTE));
        assert_eq!(table.next(entry, LAST_MINUTE), Err(17));
        assert!(table.next(entry, most).is_ok());
        assert_eq!(table.next(entry, most + 1 + CYCLE), Err(14));
    }
}
