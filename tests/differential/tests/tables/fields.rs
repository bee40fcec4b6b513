//! The five fields: every value of a set is asked for, by a minute that has it and is else the same.

use differential::table::Compared;
use reference::calendar::minute_of;
use reference::random::Random;
use reference::table::samples::{self, LIMITS};
use reference::table::Dialect;

/// A minute for each value of a field from its first on, in a table whose other fields are `*`.
fn minutes_of_values(which: usize) -> Vec<u64> {
    let (first, last) = LIMITS[which];
    // 1970-03-01 was a Sunday, and March has 31 days.
    let minute = |value: u64| match which {
        0 => minute_of(1970, 3, 1, 0, value),
        1 => minute_of(1970, 3, 1, value, 0),
        2 => minute_of(1970, 3, value, 0, 0),
        3 => minute_of(1970, value, 1, 0, 0),
        _ => minute_of(1970, 3, 1 + value, 0, 0),
    };
    let minutes = (first..=last).map(|value| minute(value).expect("a date"));
    minutes.collect()
}

fn with_field(which: usize, field: &str) -> String {
    let mut fields = ["*"; 5];
    fields[which] = field;
    format!("{} a b\n", fields.join(" "))
}

/// The values of a field for which an entry is due, which are the same in tables of both kinds.
fn values(which: usize, field: &str) -> Result<Vec<u64>, u64> {
    // Good in both kinds, or in neither.
    let table = with_field(which, field);
    let [user, system] = [
        Compared::of(table.as_bytes()),
        Compared::system(table.as_bytes()),
    ]
    .map(|table| due_values(which, &table));
    assert_eq!(user, system, "{field}");
    user
}

fn due_values(which: usize, table: &Compared) -> Result<Vec<u64>, u64> {
    table.check()?;
    let minutes = minutes_of_values(which);
    let is_due = |minute: u64| table.due(0, minute).expect("a minute of the calendar") == 1;
    let (first, _) = LIMITS[which];
    let due = (first..).zip(minutes).filter(|&(_, at)| is_due(at));
    Ok(due.map(|(value, _)| value).collect())
}

/// What a range with a step means: the first value, and each step-th after it. 0 and 7 are the same weekday.
fn stepped(which: usize, low: u64, high: u64, step: u64) -> Vec<u64> {
    let (first, last) = LIMITS[which];
    let is_in = |value: &u64| (low..=high).contains(value) && (value - low).is_multiple_of(step);
    let same = |value: u64| match (which, value) {
        (4, 0) => 7,
        (4, 7) => 0,
        _ => value,
    };
    let either = |value: &u64| is_in(value) || is_in(&same(*value));
    (first..=last).filter(either).collect()
}

#[test]
fn every_number_and_range_of_every_field() {
    let steps = [1, 2, 3, 5, 7, 10, 31, 59, 60, 256, 9_999];
    let mut random = Random::seeded();
    for (which, (first, last)) in LIMITS.into_iter().enumerate() {
        for low in 0..=last + 2 {
            let inside = first <= low && low <= last;
            let expected = if inside {
                Ok(stepped(which, low, low, 1))
            } else {
                Err(6)
            };
            for text in [format!("{low}"), format!("{low:02}"), format!("{low:04}")] {
                assert_eq!(values(which, &text), expected, "{text}");
            }
            for high in 0..=last + 2 {
                let inside = inside && first <= high && high <= last;
                let step = random.pick(&steps);
                let expected = |step: u64| match () {
                    () if !inside => Err(6),
                    () if low > high => Err(7),
                    () if step == 0 => Err(8),
                    () => Ok(stepped(which, low, high, step)),
                };
                let rows = [
                    (format!("{low}-{high}"), 1),
                    (format!("{low}-{high}/{step}"), step),
                    (format!("{low}-{high}/0"), 0),
                ];
                for (text, step) in rows {
                    assert_eq!(values(which, &text), expected(step), "{text}");
                }
            }
        }
    }
}

#[test]
fn stars_with_every_step() {
    for (which, (first, last)) in LIMITS.into_iter().enumerate() {
        assert_eq!(values(which, "*"), Ok((first..=last).collect()));
        assert_eq!(values(which, "*/0"), Err(8));
        for step in (1..=70).chain([255, 256, 4_096, 8_192, 9_999]) {
            let expected = stepped(which, first, last, step);
            for text in [format!("*/{step}"), format!("*/{step:04}")] {
                assert_eq!(values(which, &text), Ok(expected.clone()), "{text}");
            }
        }
    }
}

#[test]
fn lists_have_the_values_of_their_elements() {
    let mut random = Random::seeded();
    for round in 0..10_000 {
        let which = round % 5;
        let texts: Vec<String> = (0..1 + random.below(6))
            .map(|_| samples::field(&mut random, Dialect::Rising, which))
            .filter(|text| !text.starts_with('*'))
            .collect();
        if texts.is_empty() {
            continue;
        }
        let whole = values(which, &texts.join(",")).expect("a good list");
        let mut single: Vec<u64> = texts
            .iter()
            .flat_map(|text| values(which, text).expect("a good field"))
            .collect();
        single.sort();
        single.dedup();
        assert_eq!(whole, single, "{texts:?}");
    }
}

const NAMES: [(usize, &str, &str); 2] = [
    (3, "janfebmaraprmayjunjulaugsepoctnovdec", "month"),
    (4, "sunmontuewedthufrisat", "weekday"),
];

#[test]
fn names_in_any_letter_case_in_their_own_field() {
    for (own, names, kind) in NAMES {
        for (place, name) in names.as_bytes().chunks(3).enumerate() {
            for cases in 0..8 {
                let letter = |at: usize| match cases >> at & 1 {
                    0 => name[at] as char,
                    _ => name[at].to_ascii_uppercase() as char,
                };
                let name: String = (0..3).map(letter).collect();
                let value = LIMITS[own].0 + place as u64;
                let expected = stepped(own, value, value, 1);
                assert_eq!(values(own, &name), Ok(expected), "{kind} {name}");
                for which in (1..5).filter(|&which| which != own) {
                    assert_eq!(values(which, &name), Err(5), "{name}");
                }
                assert_eq!(values(own, &format!("{name}-{name}")), values(own, &name));
                let others = [
                    format!("{name}/1"),
                    format!("*/{name}"),
                    format!("1-2/{name}"),
                    format!("{name},"),
                    format!("{name}-"),
                    format!("-{name}"),
                    format!("{name}{name}"),
                    format!("{name}."),
                    name[..2].to_string(),
                    name[1..].to_string(),
                ];
                for text in others {
                    assert_eq!(values(own, &text), Err(5), "{text}");
                }
            }
        }
    }
}

/// What a name or a number stands for as the end of a range: `sun` is 0, but 7 as the upper end where the lower one isn't `sun`.
fn meant(own: usize, low: &str, high: &str) -> [u64; 2] {
    let (_, names, _) = NAMES[own - 3];
    let value = |text: &str| match names.find(&text.to_lowercase()) {
        Some(place) => LIMITS[own].0 + place as u64 / 3,
        None => text.parse().expect("a number"),
    };
    match high == "sun" && low != "sun" {
        true => [value(low), 7],
        false => [value(low), value(high)],
    }
}

#[test]
fn every_pair_of_names_and_numbers_as_a_range() {
    for (own, names, _) in NAMES {
        let (first, last) = LIMITS[own];
        let numbers = (0..=last + 1).map(|number| number.to_string());
        let named = (0..names.len())
            .step_by(3)
            .map(|at| names[at..at + 3].to_string());
        let ends: Vec<String> = numbers.chain(named).collect();
        for low in &ends {
            for high in &ends {
                let [from, to] = meant(own, low, high);
                for step in 1..=4 {
                    let inside = (first..=last).contains(&from) && (first..=last).contains(&to);
                    let expected = match (inside, from <= to) {
                        (false, _) => Err(6),
                        (true, false) => Err(7),
                        (true, true) => Ok(stepped(own, from, to, step)),
                    };
                    let range = format!("{low}-{high}/{step}");
                    assert_eq!(values(own, &range), expected, "{range}");
                    assert_eq!(values(own, &range.to_uppercase()), expected, "{range}");
                    if step == 1 {
                        assert_eq!(values(own, &format!("{low}-{high}")), expected, "{range}");
                    }
                }
                let both = values(own, low).and_then(|_| values(own, high));
                let list = values(own, &format!("{low},{high}"));
                assert_eq!(list.map(|_| ()), both.map(|_| ()), "{low},{high}");
            }
        }
    }
}

#[test]
fn names_with_one_byte_changed() {
    for (own, names, _) in NAMES {
        for name in names.as_bytes().chunks(3) {
            for at in 0..3 {
                for byte in (1..=255).filter(|byte| !b" \t\n".contains(byte)) {
                    let mut changed = name.to_vec();
                    changed[at] = byte;
                    let line = [&b"* * * * "[..2 * own], &changed, b" * a\n"].concat();
                    let _ = Compared::of(&line).next(0, 0);
                }
            }
        }
    }
}

#[test]
fn words_with_one_byte_changed() {
    for word in samples::WORDS {
        let word = word.as_bytes();
        let judge = |changed: &[u8]| {
            let line = [changed, b" a\n"].concat();
            let table = Compared::of(&line);
            let _ = table.next(0, 0);
            table.fault()
        };
        assert_eq!(judge(word), None);
        for at in 1..word.len() {
            let shorter = [&word[..at], &word[at + 1..]].concat();
            assert_eq!(judge(&shorter), Some([10, 1, 1]));
            for byte in 1..=255 {
                let mut changed = word.to_vec();
                changed[at] = byte;
                let longer = [&word[..at], &[byte], &word[at..]].concat();
                if byte.is_ascii_control() && byte != b'\t' && byte != b'\n' {
                    let fault = Some([27, 1, at as u64 + 1]);
                    assert_eq!(judge(&changed), fault);
                    assert_eq!(judge(&longer), fault);
                } else if !b" \t\n".contains(&byte) {
                    let fault = (changed != word).then_some([10, 1, 1]);
                    assert_eq!(judge(&changed), fault);
                    assert_eq!(judge(&longer), Some([10, 1, 1]));
                } else {
                    let _ = judge(&changed);
                    let _ = judge(&longer);
                }
            }
        }
    }
}

/// Every text of up to so many of these bytes, as each of the fields.
#[test]
fn short_texts_of_the_bytes_that_fields_are_made_of() {
    let bytes = b"*/-,017";
    let mut texts: Vec<String> = vec![String::new()];
    let mut all = Vec::new();
    for _ in 0..5 {
        texts = texts
            .iter()
            .flat_map(|text| {
                bytes
                    .iter()
                    .map(move |&byte| format!("{text}{}", byte as char))
            })
            .collect();
        all.extend(texts.clone());
    }
    for text in all {
        for which in 0..5 {
            let line = with_field(which, &text);
            let table = Compared::of(line.as_bytes());
            if table.check() == Ok(1) && which == 4 {
                let _ = values(which, &text);
            }
        }
    }
}

#[test]
fn day_fields_together() {
    // Whether a day counts, for each way to write the two fields and the days of some months.
    let days = ["*", "*/1", "*/2", "1-31", "13", "29", "30", "31", "1,15"];
    let weekdays = ["*", "*/1", "*/2", "0-7", "0", "7", "5", "1-5", "fri", "6-7"];
    let months = ["*", "2", "*/2", "feb", "4,6,9,11", "12"];
    for day in days {
        for weekday in weekdays {
            for month in months {
                let line = format!("0 0 {day} {month} {weekday} a\n");
                let table = Compared::of(line.as_bytes());
                for start in [0, 14_000_000, 66_000_000] {
                    let mut minute = start;
                    for _ in 0..6 {
                        match table.next(0, minute) {
                            Ok(firing) => minute = firing,
                            Err(_) => break,
                        }
                    }
                }
                for at in 0..60 {
                    let _ = table.due(0, 1_036_800 + at * 1_440);
                }
            }
        }
    }
}
