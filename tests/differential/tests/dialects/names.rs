//! Names as values and as the ends of ranges: in the second dialect `sun` is always 0.

use crate::{counted, set_of, WEEKDAYS};
use reference::table::samples::limits;
use reference::table::Dialect;

const MONTHS: usize = 3;

const NAMES: [(usize, [&str; 12]); 2] = [
    (
        MONTHS,
        [
            "jan", "feb", "mar", "apr", "may", "jun", "jul", "aug", "sep", "oct", "nov", "dec",
        ],
    ),
    (
        WEEKDAYS,
        [
            "sun", "mon", "tue", "wed", "thu", "fri", "sat", "", "", "", "", "",
        ],
    ),
];

/// The texts that may end a range of a field, each with what it stands for: names, and numbers of which the last is past the
/// limits.
fn ends(which: usize) -> Vec<(String, u64)> {
    let (first, last) = limits(Dialect::Wrapping)[which];
    let (_, names) = NAMES[which - MONTHS];
    let named = names.into_iter().filter(|name| !name.is_empty());
    let named = named.map(String::from).zip(first..);
    let numbers = (0..=last + 1).map(|number| (number.to_string(), number));
    named.chain(numbers).collect()
}

#[test]
fn every_pair_of_names_and_numbers_as_a_range() {
    for (which, _) in NAMES {
        let (first, last) = limits(Dialect::Wrapping)[which];
        for (low, from) in ends(which) {
            for (high, to) in ends(which) {
                let inside = [from, to].iter().all(|end| (first..=last).contains(end));
                for step in 1..=4 {
                    let expected = match inside {
                        true => Ok(counted(Dialect::Wrapping, which, [from, to], step)),
                        false => Err(6),
                    };
                    let range = format!("{low}-{high}/{step}");
                    for text in [range.clone(), range.to_uppercase()] {
                        assert_eq!(set_of(Dialect::Wrapping, which, &text), expected, "{text}");
                    }
                }
            }
        }
    }
}

#[test]
fn every_name_alone_is_its_value_in_both() {
    for (which, _) in NAMES {
        let (first, _) = limits(Dialect::Wrapping)[which];
        for (name, value) in ends(which).into_iter().filter(|(name, _)| name.len() == 3) {
            for dialect in Dialect::BOTH {
                assert_eq!(set_of(dialect, which, &name), Ok(1 << value), "{name}");
                let list = format!("{name},{first}");
                assert_eq!(set_of(dialect, which, &list), Ok(1 << value | 1 << first));
            }
        }
    }
}

/// By hand, in both: only as the upper end of a range, behind another end than `sun`, it is another day.
#[test]
fn sun_in_every_place() {
    const WHOLE: u64 = 0x7f;
    let rows: [(&str, Result<u64, u64>, u64); 16] = [
        ("sun", Ok(0b1), 0b1),
        ("sun-sun", Ok(0b1), 0b1),
        ("sun-sun/3", Ok(0b1), 0b1),
        ("0-sun", Ok(WHOLE), 0b1),
        ("sun-0", Ok(0b1), 0b1),
        ("sun-sat", Ok(WHOLE), WHOLE),
        ("sun-2", Ok(0b111), 0b111),
        ("mon-sun", Ok(WHOLE), WHOLE),
        ("fri-sun", Ok(0b110_0001), 0b110_0001),
        ("sat-SUN/2", Ok(0b100_0000), 0b100_0000),
        ("1-sun/3", Ok(0b001_0011), 0b001_0011),
        ("2-sun/5", Ok(0b000_0101), 0b000_0101),
        ("0-Sun/2", Ok(0b101_0101), 0b1),
        ("sat-mon", Err(7), 0b100_0011),
        ("wed,sat-sun", Ok(0b100_1001), 0b100_1001),
        ("5-mon/2", Err(7), 0b010_0001),
    ];
    for (text, rising, wrapping) in rows {
        assert_eq!(set_of(Dialect::Rising, WEEKDAYS, text), rising, "{text}");
        let found = set_of(Dialect::Wrapping, WEEKDAYS, text);
        assert_eq!(found, Ok(wrapping), "{text}");
    }
}
