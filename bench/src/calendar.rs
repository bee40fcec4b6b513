//! A minute's date in all six parts, and a date's minute. First as a C caller asks for it, by a call for each part and by one
//! for all, beside the reference program and glibc. Then a whole date in one call, beside the walk year by year, glibc, and the plain Rust
//! versions of two well-known algorithms, which check nothing.

use crate::glibc;
use crate::measure::{in_turn, print_head, print_row, round};
use crate::plain;
use reference::calendar::{date_of, minute_of, LAST_MINUTE};
use reference::random::Random;
use test_calls::dates::{
    calendar_date, calendar_date_by_walk, calendar_minute, calendar_minute_by_walk, packed, Parts,
};

const COUNT: u64 = 100_000;

/// 2024-01-01 00:00, where the run of consecutive minutes starts.
const RUN_START: u64 = 28_401_120;

pub fn run() {
    let mut random = Random::new(1);
    let drawn: Vec<u64> = (0..COUNT).map(|_| random.below(LAST_MINUTE + 1)).collect();
    let consecutive: Vec<u64> = (RUN_START..RUN_START + COUNT).collect();

    print_head(
        "calendar, a call for each part",
        &["reference program", "glibc"],
    );
    by_parts("random minutes", &drawn);
    by_parts("consecutive minutes", &consecutive);

    print_head(
        "calendar, a whole date in one call",
        &["walk", "glibc", "Hinnant", "Neri, Schneider"],
    );
    whole("random minutes", &drawn);
    whole("consecutive minutes", &consecutive);
    println!("goals for a date: glibc at least 5, Neri and Schneider at least 0.667");
}

fn by_parts(which: &str, minutes: &[u64]) {
    let dates: Vec<Parts> = minutes.iter().map(|&minute| library_date(minute)).collect();
    for (&minute, &date) in minutes.iter().zip(&dates) {
        for other in [one_call, second_date, glibc::date] {
            assert_eq!(other(minute), date, "minute {minute}");
        }
        for back in [library_minute, second_minute, glibc::minute] {
            assert_eq!(back(date), minute, "{date:?}");
        }
    }

    let there = in_turn(&[
        &|| round(minutes, library_date),
        &|| round(minutes, second_date),
        &|| round(minutes, glibc::date),
    ]);
    let at_once = in_turn(&[
        &|| round(minutes, one_call),
        &|| round(minutes, second_date),
        &|| round(minutes, glibc::date),
    ]);
    let back = in_turn(&[
        &|| round(&dates, library_minute),
        &|| round(&dates, second_minute),
        &|| round(&dates, glibc::minute),
    ]);
    print_row(&format!("{which}: date"), there[0], &there[1..]);
    print_row(
        &format!("{which}: by eremothyn_date"),
        at_once[0],
        &at_once[1..],
    );
    print_row(&format!("{which}: and back"), back[0], &back[1..]);
}

fn whole(which: &str, minutes: &[u64]) {
    let dates: Vec<Parts> = minutes.iter().map(|&minute| glibc::date(minute)).collect();
    for (&minute, &date) in minutes.iter().zip(&dates) {
        for number in [calendar_date, calendar_date_by_walk] {
            assert_eq!(number(minute), packed(date), "minute {minute}");
        }
        for number in [plain::hinnant_date, plain::neri_schneider_date] {
            assert_eq!(number(minute), packed(date), "minute {minute}");
        }
        for back in [
            direct_minute,
            walked_minute,
            plain::hinnant_minute,
            plain::neri_schneider_minute,
        ] {
            assert_eq!(back(date), minute, "{date:?}");
        }
    }

    let there = in_turn(&[
        &|| round(minutes, |minute| calendar_date(minute)),
        &|| round(minutes, |minute| calendar_date_by_walk(minute)),
        &|| round(minutes, glibc::broken_down),
        &|| round(minutes, plain::hinnant_date),
        &|| round(minutes, plain::neri_schneider_date),
    ]);
    let back = in_turn(&[
        &|| round(&dates, direct_minute),
        &|| round(&dates, walked_minute),
        &|| round(&dates, glibc::minute),
        &|| round(&dates, plain::hinnant_minute),
        &|| round(&dates, plain::neri_schneider_minute),
    ]);
    print_row(&format!("{which}: date"), there[0], &there[1..]);
    print_row(&format!("{which}: and back"), back[0], &back[1..]);
}

const OFF: &str = "only minutes of the calendar are measured";

fn library_date(minute: u64) -> Parts {
    [
        eremothyn::year(minute),
        eremothyn::month(minute),
        eremothyn::day(minute),
        eremothyn::hour(minute),
        eremothyn::minute_of_hour(minute),
        eremothyn::weekday(minute),
    ]
    .map(|part| part.expect(OFF))
}

/// All six parts at once, in a lent run.
fn one_call(minute: u64) -> Parts {
    let mut run = [0u16; 6];
    eremothyn::date(minute, &mut run[..]).expect(OFF);
    run.map(u64::from)
}

fn library_minute([year, month, day, hour, minute, _]: Parts) -> u64 {
    eremothyn::minute_of_date(year, month, day, hour, minute).expect(OFF)
}

fn second_date(minute: u64) -> Parts {
    date_of(minute).expect(OFF).parts()
}

fn second_minute([year, month, day, hour, minute, _]: Parts) -> u64 {
    minute_of(year, month, day, hour, minute).expect(OFF)
}

fn direct_minute([year, month, day, hour, minute, _]: Parts) -> u64 {
    calendar_minute(year, month, day, hour, minute)
}

fn walked_minute([year, month, day, hour, minute, _]: Parts) -> u64 {
    calendar_minute_by_walk(year, month, day, hour, minute)
}
