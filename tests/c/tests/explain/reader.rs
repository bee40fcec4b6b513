//! The words read back, as a person reads them.

use c::shown::MONTHS;

/// What words mean. Bit n of a set is the value n, and Sunday is 0; a set that isn't spoken of has every value.
#[derive(Clone, Copy, Debug, PartialEq, Eq, Hash)]
pub struct Meaning {
    pub minutes: u64,
    pub hours: u64,
    pub days: u64,
    pub months: u64,
    pub weekdays: u64,
    /// A day is in either of the day sets, not in both.
    pub either: bool,
}

pub const EVERY: Meaning = Meaning {
    minutes: (1 << 60) - 1,
    hours: (1 << 24) - 1,
    days: (1 << 32) - 2,
    months: (1 << 13) - 2,
    weekdays: (1 << 7) - 1,
    either: false,
};

const WEEKDAYS: [&str; 7] = [
    "Monday",
    "Tuesday",
    "Wednesday",
    "Thursday",
    "Friday",
    "Saturday",
    "Sunday",
];

pub fn read(words: &str) -> Meaning {
    let mut meaning = EVERY;
    let (time, days) = match words.split_once(" on ") {
        Some((time, days)) => (time, Some(days)),
        None => (months_in(words, " in ", &mut meaning), None),
    };
    read_time(
        time.strip_suffix(" every day").unwrap_or(time),
        &mut meaning,
    );
    if let Some(days) = days {
        read_days(days, &mut meaning);
    }
    meaning
}

fn read_time(words: &str, meaning: &mut Meaning) {
    let words = match words.split_once(" in the hour") {
        Some((minutes, hours)) => {
            meaning.hours = list(hours.trim_start_matches(['s', ' ']), number);
            minutes
        }
        None => words,
    };
    if words == "every minute" {
        return;
    }
    if let Some(rest) = words.strip_prefix("every ") {
        let (step, rest) = rest.split_once(' ').expect("a step");
        match rest.split_once(" from ").unwrap_or((rest, ":00")) {
            ("minutes", first) => meaning.minutes = steps(number(&first[1..]), number(step), 60),
            ("hours", first) => {
                meaning.hours = steps(number(&first[..2]), number(step), 24);
                meaning.minutes = 1 << number(&first[3..]);
            }
            other => panic!("{other:?}"),
        }
    } else if let Some(times) = words.strip_prefix("hourly from ") {
        let (first, last) = times.split_once(" to ").expect("two times");
        meaning.hours = steps(number(&first[..2]), 1, number(&last[..2]) + 1);
        meaning.minutes = 1 << number(&first[3..]);
        assert_eq!(first[3..], last[3..], "{words}");
    } else if let Some(minutes) = words.strip_prefix("hourly at ") {
        meaning.minutes = list(minutes, |minute| number(&minute[1..]));
    } else {
        read_times(words.strip_prefix("at ").expect("a time"), meaning);
    }
}

/// Minutes of the hours that were read, or times of the day, which are each of some minutes in each of some hours.
fn read_times(words: &str, meaning: &mut Meaning) {
    if words.starts_with(':') {
        meaning.minutes = list(words, |minute| number(&minute[1..]));
        return;
    }
    meaning.hours = list(words, |time| number(&time[..2]));
    meaning.minutes = list(words, |time| number(&time[3..]));
    let times = meaning.hours.count_ones() * meaning.minutes.count_ones();
    assert_eq!(pieces(words).count() as u32, times, "{words}");
}

fn read_days(words: &str, meaning: &mut Meaning) {
    if let Some((days, rest)) = words.split_once(", and on every ") {
        meaning.either = true;
        meaning.days = day_set(days.trim_end_matches(" of the month"));
        meaning.weekdays = list(months_in(rest, ", in ", meaning), weekday);
    } else if let Some((weekdays, days)) = words.split_once(" that are ") {
        meaning.weekdays = list(weekdays, plural);
        read_days(days, meaning);
    } else if WEEKDAYS.iter().any(|name| words.starts_with(name)) {
        meaning.weekdays = list(months_in(words, " in ", meaning), plural);
    } else {
        let days = words.strip_suffix(" of the month").unwrap_or(words);
        meaning.days = day_set(months_in(days, " of ", meaning));
    }
}

fn day_set(words: &str) -> u64 {
    match words {
        "odd days" => steps(1, 2, 32),
        "even days" => steps(2, 2, 32),
        _ => list(words.strip_prefix("the ").expect("days"), |day| {
            number(&day[..day.len() - 2])
        }),
    }
}

/// Takes the months behind some words, and says what stands before.
fn months_in<'a>(words: &'a str, before: &str, meaning: &mut Meaning) -> &'a str {
    match words.rsplit_once(before) {
        Some((rest, months)) if MONTHS.iter().any(|name| months.starts_with(name)) => {
            meaning.months = list(months, |name| place(&MONTHS, name) + 1);
            rest
        }
        _ => words,
    }
}

fn number(digits: &str) -> u64 {
    digits.parse().expect(digits)
}

fn place(names: &[&str], name: &str) -> u64 {
    names.iter().position(|&each| each == name).expect(name) as u64
}

/// A weekday from Monday on; `list` has Sunday last, and the set has it first.
fn weekday(name: &str) -> u64 {
    place(&WEEKDAYS, name) + 1
}

fn plural(name: &str) -> u64 {
    weekday(name.strip_suffix('s').expect("a plural"))
}

fn steps(first: u64, step: u64, end: u64) -> u64 {
    (first..end)
        .step_by(step as usize)
        .fold(0, |set, value| set | 1 << value)
}

fn pieces(words: &str) -> impl Iterator<Item = &str> {
    words.split(", ").flat_map(|piece| piece.split(" and "))
}

/// A list of values, and of values from one to another.
fn list(words: &str, value: impl Fn(&str) -> u64) -> u64 {
    let mut set = 0;
    for piece in pieces(words) {
        let (first, last) = piece.split_once(" to ").unwrap_or((piece, piece));
        let (first, last) = (value(first), value(last));
        assert!(first <= last, "{words}");
        set |= steps(first, 1, last + 1);
    }
    set
}

/// A set of weekdays in which Sunday is 7, as one in which it is 0.
pub fn sunday_first(meaning: Meaning) -> Meaning {
    match meaning.weekdays == EVERY.weekdays {
        true => meaning,
        false => Meaning {
            weekdays: meaning.weekdays & 0x7e | meaning.weekdays >> 7,
            ..meaning
        },
    }
}
