//! What is said of a bad time: the place and the number are the library's, and the words name the field and its limits.

use super::{check_in, says, short};

/// A line of a user table in the rising dialect, and its one diagnostic: column, words and number.
const LINES: [(&str, u64, &str, u64); 40] = [
    ("5 5", 4, "only 2 of the five time fields", 4),
    ("* * * *", 8, "only 4 of the five time fields", 4),
    ("* \t", 4, "only 1 of the five time fields", 4),
    ("60 0 * * * x", 1, "minute: 60 is outside 0-59", 6),
    ("0 24 * * * x", 3, "hour: 24 is outside 0-23", 6),
    ("0 0 32 * * x", 5, "day: 32 is outside 1-31", 6),
    ("0 0 0 * * x", 5, "day: 0 is outside 1-31", 6),
    ("0 0 * 13 * x", 7, "month: 13 is outside 1-12", 6),
    ("0 0 * * 8 x", 9, "weekday: 8 is outside 0-7", 6),
    // The number that is outside, of the element that has it.
    ("1,2,60-70,80 0 * * * x", 5, "minute: 60 is outside 0-59", 6),
    ("0 5-25/2 * * * x", 3, "hour: 25 is outside 0-23", 6),
    ("0 0 * jan-0013 * x", 7, "month: 0013 is outside 1-12", 6),
    (
        "0 0 * * 1,fri-9999 x",
        11,
        "weekday: 9999 is outside 0-7",
        6,
    ),
    (
        "0 17-9 * * * x",
        3,
        "hour: 17-9 is a range from high to low, which only the wrapping dialect has",
        7,
    ),
    (
        "0 0 1,9-8/2 * * x",
        7,
        "day: 9-8/2 is a range from high to low, which only the wrapping dialect has",
        7,
    ),
    (
        "0 0 * Dec-Jan * x",
        7,
        "month: Dec-Jan is a range from high to low, which only the wrapping dialect has",
        7,
    ),
    ("*/0 0 * * * x", 1, "minute: */0 has a step of 0", 8),
    (
        "0 0 * * 1,2-3/00 x",
        11,
        "weekday: 2-3/00 has a step of 0",
        8,
    ),
    ("0 0 * * *", 10, "no command after the time", 9),
    ("@daily  ", 9, "no command after the time", 9),
    // 5, by what is wrong with the field's form.
    (
        "00024 0 * * * x",
        1,
        "minute: '00024' has too many digits: numbers have one to four",
        5,
    ),
    (
        "0 */00001 * * * x",
        3,
        "hour: '00001' has too many digits: numbers have one to four",
        5,
    ),
    (
        "0 1,2-10000 * * * x",
        3,
        "hour: '10000' has too many digits: numbers have one to four",
        5,
    ),
    (
        "0 mon * * * x",
        3,
        "hour: 'mon' is a name, and only numbers may stand here",
        5,
    ),
    (
        "0 0 1-x * * x",
        5,
        "day: 'x' is a name, and only numbers may stand here",
        5,
    ),
    (
        "0 0 * mon * x",
        7,
        "month: unknown name 'mon': the names are jan to dec",
        5,
    ),
    (
        "0 0 * * 1,foo-2 x",
        9,
        "weekday: unknown name 'foo': the names are sun to sat",
        5,
    ),
    (
        "0 0 * * */mon x",
        9,
        "weekday: 'mon' is a name, and a step is a number",
        5,
    ),
    (
        "*,5 0 * * * x",
        1,
        "minute: '*' can't be an element of a list",
        5,
    ),
    (
        "0 5,*/2 * * * x",
        3,
        "hour: '*/2' can't be an element of a list",
        5,
    ),
    (
        "0 5/2 * * * x",
        3,
        "hour: '5/2' has a step, but no range",
        5,
    ),
    (
        "0 0 * feb/2 * x",
        7,
        "month: 'feb/2' has a step, but no range",
        5,
    ),
    (
        "0 1,,2 * * * x",
        3,
        "hour: an element of the list is empty",
        5,
    ),
    (
        "1, 0 * * * x",
        1,
        "minute: an element of the list is empty",
        5,
    ),
    (
        "0 5- * * * x",
        3,
        "hour: '5-' is a range that lacks an end",
        5,
    ),
    (
        "0 -5 * * * x",
        3,
        "hour: '-5' is a range that lacks an end",
        5,
    ),
    (
        "*/ 0 * * * x",
        1,
        "minute: '*/' has nothing behind the slash",
        5,
    ),
    (
        "0 1-5/ * * * x",
        3,
        "hour: '1-5/' has nothing behind the slash",
        5,
    ),
    (
        "A='b' c",
        1,
        "neither an entry nor a setting, which is name=value",
        11,
    ),
    (
        "\tname",
        2,
        "neither an entry nor a setting, which is name=value",
        11,
    ),
];

#[test]
fn a_bad_line_is_told_with_its_field() {
    let check = check_in("check-lines");
    for (line, column, words, number) in LINES {
        let table = format!("# one\n{line}\n");
        let told = format!("t:2:{column}: error: {words} [{number}]");
        assert_eq!(short(&check, &[], &table), [told], "{line}");
        assert_eq!(says(&check, &[], &table).1, Some(1), "{line}");
    }
}

/// Fields of no form that has a word of its own.
#[test]
fn any_other_field_is_told_with_the_form() {
    let check = check_in("check-form");
    let form = "is not a time field: *, */step, or a list of n, n-m and n-m/step, with names for months and weekdays";
    for (line, column, field) in [
        ("12:30 * * * * x", 1, "minute: '12:30'"),
        ("0 *-5 * * * x", 3, "hour: '*-5'"),
        ("0 1-2-3 * * * x", 3, "hour: '1-2-3'"),
        ("0 0 +1 * * x", 5, "day: '+1'"),
        ("0 0 * 1,2;3 * x", 7, "month: '1,2;3'"),
        ("0 0 * * caf\u{e9} x", 9, "weekday: 'caf\u{e9}'"),
    ] {
        let told = format!("t:1:{column}: error: {field} {form} [5]");
        assert_eq!(short(&check, &[], format!("{line}\n")), [told]);
    }
    // A long one is cut.
    let told = short(&check, &[], format!("0 1-2-{} * * * x\n", "9".repeat(100)));
    let field = format!("1-2-{}...", "9".repeat(33));
    assert_eq!(told, [format!("t:1:3: error: hour: '{field}' {form} [5]")]);
}
