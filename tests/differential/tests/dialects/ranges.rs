//! Every range of every field with every step, in both dialects: against the reference program, which walks round a field value by
//! value, and against the rule by counting.

use crate::{column, counted, set_of, sets, with_field};
use differential::table::Compared;
use reference::table::samples::limits;
use reference::table::Dialect;

/// Steps up to one past the field's size, and large ones.
fn steps((first, last): (u64, u64)) -> Vec<u64> {
    let size = last - first + 1;
    (1..=size + 1).chain([255, 256, 4_096, 9_999]).collect()
}

/// The ranges of a field, low end by low end.
fn ranges((first, last): (u64, u64)) -> impl Iterator<Item = [u64; 2]> {
    (first..=last).flat_map(move |low| (first..=last).map(move |high| [low, high]))
}

#[test]
fn every_range_with_every_step_has_the_values_that_are_counted() {
    for dialect in Dialect::BOTH {
        for (which, limits) in limits(dialect).into_iter().enumerate() {
            for [low, high] in ranges(limits) {
                if dialect == Dialect::Rising && low > high {
                    continue;
                }
                let steps = steps(limits);
                let texts: Vec<String> = steps
                    .iter()
                    .map(|step| format!("{low}-{high}/{step}"))
                    .collect();
                let expected: Vec<u64> = steps
                    .iter()
                    .map(|&step| counted(dialect, which, [low, high], step))
                    .collect();
                let found = sets(dialect, which, &texts);
                assert_eq!(found, Ok(expected), "{dialect:?} {which} {low}-{high}");
            }
        }
    }
}

/// Without a step it is 1, and leading zeros don't count.
#[test]
fn every_range_without_a_step() {
    for dialect in Dialect::BOTH {
        for (which, limits) in limits(dialect).into_iter().enumerate() {
            for [low, high] in ranges(limits) {
                let expected = match dialect == Dialect::Rising && low > high {
                    true => Err(7),
                    false => Ok(counted(dialect, which, [low, high], 1)),
                };
                for text in [format!("{low}-{high}"), format!("{low:04}-{high:02}/0001")] {
                    let found = set_of(dialect, which, &text);
                    assert_eq!(found, expected, "{dialect:?} {which} {text}");
                }
            }
        }
    }
}

/// In the first dialect 7 comes before 8 where a range is reversed; in the second step 0 is 8 in every range.
#[test]
fn every_range_with_step_0() {
    for dialect in Dialect::BOTH {
        for (which, limits) in limits(dialect).into_iter().enumerate() {
            for [low, high] in ranges(limits) {
                let number = match dialect == Dialect::Rising && low > high {
                    true => 7,
                    false => 8,
                };
                let line = with_field(which, &format!("{low},{low}-{high}/0"));
                let before = format!("{low},").len() as u64;
                let fault = Compared::under(line.as_bytes(), dialect).fault();
                let expected = Some([number, 1, column(which) + before]);
                assert_eq!(fault, expected, "{dialect:?} {line}");
            }
        }
    }
}

#[test]
fn every_number_alone_is_itself_or_outside_the_limits() {
    for dialect in Dialect::BOTH {
        for (which, (first, last)) in limits(dialect).into_iter().enumerate() {
            for number in (0..=last + 2).chain([99, 100, 9_999]) {
                let expected = match (first..=last).contains(&number) {
                    true => Ok(counted(dialect, which, [number, number], 1)),
                    false => Err(6),
                };
                let found = set_of(dialect, which, &number.to_string());
                assert_eq!(found, expected, "{dialect:?} {which} {number}");
            }
        }
    }
}

/// A range that ends just before it starts is the whole field, and one that ends where it starts is that value.
#[test]
fn whole_fields_and_single_values() {
    for (which, (first, last)) in limits(Dialect::Wrapping).into_iter().enumerate() {
        let whole = (first..=last).fold(0, |set, value| set | 1 << value);
        for low in first..=last {
            let before = if low == first { last } else { low - 1 };
            let found = set_of(Dialect::Wrapping, which, &format!("{low}-{before}"));
            assert_eq!(found, Ok(whole), "{which} {low}-{before}");
            let found = set_of(Dialect::Wrapping, which, &format!("{low}-{low}/9"));
            assert_eq!(found, Ok(1 << low), "{which} {low}-{low}");
        }
    }
}

/// `*` runs over 0 to 6 in the second dialect, and over 0 to 7 in the first.
#[test]
fn a_star_with_every_step_has_the_same_values_in_both() {
    for (which, limits) in limits(Dialect::Wrapping).into_iter().enumerate() {
        let texts: Vec<String> = steps(limits)
            .iter()
            .map(|step| format!("*/{step}"))
            .chain(["*".to_string()])
            .collect();
        let [rising, wrapping] = Dialect::BOTH.map(|dialect| sets(dialect, which, &texts));
        assert_eq!(rising, wrapping, "{which}");
        let (first, last) = limits;
        let steps = steps(limits).into_iter().chain([1]);
        let expected = steps.map(|step| counted(Dialect::Wrapping, which, [first, last], step));
        assert_eq!(wrapping, Ok(expected.collect()), "{which}");
    }
}
