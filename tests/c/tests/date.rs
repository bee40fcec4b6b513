//! `examples/date.c`.

use c::{build, run, scratch, told};

#[test]
fn the_example_prints_dates_and_minutes_and_refuses_the_rest() {
    let program = build(&["examples/date.c"], &scratch("date"));
    let rows: [(&[&str], i32, &str); 8] = [
        (&["0"], 0, "1970-01-01 00:00 Thursday\n"),
        (&["15863040"], 0, "2000-02-29 00:00 Tuesday\n"),
        (&["4223371679"], 0, "9999-12-31 23:59 Friday\n"),
        (&["4223371680"], 1, ""),
        (&["2000", "2", "29", "0", "0"], 0, "15863040\n"),
        (&["2100", "2", "29", "0", "0"], 1, ""),
        (&["18446744073709551616"], 2, ""),
        (&["-1"], 2, ""),
    ];
    for (arguments, status, text) in rows {
        let output = run(&program, arguments);
        assert_eq!(told(&output), (text.to_string(), Some(status)));
        assert_eq!(output.stderr.is_empty(), status == 0, "{arguments:?}");
    }
}
