//! Whole agendas, made by hand from the rules.

use crate::{agenda_in, agenda_of};
use c::{all, is};

const HUT: &str = "# The hut.
*/10 * * * *     stove watch
@reboot          lamp on
0 6 * * 1        snow clear\t--road
15 22 30 11 *    log close%the month
0 5 31 12 *      year end
0 0 30 2 *       no such day
CRON_TZ = -03:30
30 22 1 12 *     flag up
5 */4 * * 6,0    generator test
";

/// 28 November 2026 is a Saturday. The second line of what is often has 72 columns.
const PAGE: &str = "Agenda of hut
2026-11-28 to 2026-12-08, UTC

Often

every 10 minutes, 1584 times:
    stove watch
at 00:05, 04:05, 08:05, 12:05, 16:05 and 20:05 on Saturdays and Sundays,
  by the clock -03:30, 24 times:
    generator test

November 2026

30 Mon  06:00  snow clear --road
        22:15  log close

December 2026

 2 Wed  02:00  flag up

 7 Mon  06:00  snow clear --road

Days without any are left out: 8 of 11.

At boot

lamp on

Not in this span

2026-12-31 Thu 05:00  year end
never fires           no such day
";

#[test]
fn a_page_by_hand() {
    let agenda = agenda_in("agenda-worked");
    agenda.write("hut", HUT);
    let span = ["hut", "2026-11-28", "2026-12-08"];
    assert_eq!(all(&agenda.run(&span)), is(PAGE, "", 0));
    let local = PAGE.replace("02:00  flag", "02:00  [Tue 22:30 -03:30] flag");
    let arguments = [&["--local"], &span[..]].concat();
    assert_eq!(all(&agenda.run(&arguments)), is(&local, "", 0));
    // From a minute, and up to one: the day starts at 21:30 there, and the other ends with what fires then.
    let span = ["hut", "2026-11-30T06:01", "2026-12-02T02:00"];
    let (text, _, _) = all(&agenda.run(&span));
    let (title, rest) = text.split_once("\n\n").expect("a title");
    assert_eq!(
        title,
        "Agenda of hut\n2026-11-30 06:01 to 2026-12-02 02:00, UTC"
    );
    // 107 in the rest of the first day, 144, and 13 up to 02:00.
    assert!(
        rest.starts_with("Often\n\nevery 10 minutes, 264 times:\n"),
        "{text}"
    );
    assert!(
        rest.contains("\n30 Mon  22:15  log close\n\nDecember 2026\n\n 2 Wed  02:00  flag up\n")
    );
    assert!(rest.contains("\n\nDays without any are left out: 1 of 3.\n\nAt boot\n"));
    assert!(rest.ends_with(
        "Not in this span\n\n2026-12-07 Mon 06:00  snow clear --road\n2026-12-31 Thu 05:00  year end\n\
         never fires           no such day\n2026-12-05 Sat 03:35  generator test\n"
    ));
}

/// Both ends are of the span.
#[test]
fn a_span_of_a_minute() {
    let agenda = agenda_in("agenda-minute");
    agenda.write("gate", "30 21 1,15 * * gate\n* * * * * watch\n");
    let page = "Agenda of gate
2026-11-15 21:30 to 2026-11-15 21:30, UTC

Often

every minute, 1 time:
    watch

November 2026

15 Sun  21:30  gate
";
    let minute = "2026-11-15T21:30";
    assert_eq!(all(&agenda.run(&["gate", minute, minute])), is(page, "", 0));
    for (from, to) in [
        ("2026-11-15T21:29", "2026-11-15T21:29"),
        ("2026-11-15T21:31", "2026-11-15"),
    ] {
        let (text, _, _) = all(&agenda.run(&["gate", from, to]));
        assert!(!text.contains("November"), "{text}");
        assert!(text.contains("Not in this span\n\n2026-"), "{text}");
    }
    // A day as the end is the whole day.
    let (text, _, _) = all(&agenda.run(&["gate", "2026-11-15T21:30", "2026-11-15"]));
    assert!(text.contains("\nevery minute, 150 times:\n"), "{text}");
    assert!(text.starts_with("Agenda of gate\n2026-11-15 21:30 to 2026-11-15, UTC\n"));
}

/// Weeks start on Monday, and months and days have their headings once.
#[test]
fn weeks_and_months() {
    let agenda = agenda_in("agenda-weeks");
    let text = agenda_of(
        &agenda,
        &["-", "2027-01-29", "2027-02-02"],
        b"0 7,19 * * * bell\n0 7 1 * * rent\n",
    );
    let page = "Agenda of -
2027-01-29 to 2027-02-02, UTC

January 2027

29 Fri  07:00  bell
        19:00  bell
30 Sat  07:00  bell
        19:00  bell
31 Sun  07:00  bell
        19:00  bell

February 2027

 1 Mon  07:00  bell
        07:00  rent
        19:00  bell
 2 Tue  07:00  bell
        19:00  bell
";
    assert_eq!(text, page);
    let text = agenda_of(
        &agenda,
        &["-", "2026-11-14", "2026-11-17"],
        b"0 7 * * * bell\n",
    );
    let days =
        "14 Sat  07:00  bell\n15 Sun  07:00  bell\n\n16 Mon  07:00  bell\n17 Tue  07:00  bell\n";
    assert!(text.ends_with(days), "{text}");
    // Whole weeks may be left out.
    let text = agenda_of(
        &agenda,
        &["-", "2026-11-01", "2026-11-30"],
        b"0 7 9,10,30 * * bell\n",
    );
    let days = " 9 Mon  07:00  bell\n10 Tue  07:00  bell\n\n30 Mon  07:00  bell\n\nDays without any are left out: 27 of 30.\n";
    assert!(text.ends_with(days), "{text}");
}

/// A command has 57 columns, and 55 where it goes on; characters are counted, and not bytes.
#[test]
fn long_commands() {
    let agenda = agenda_in("agenda-wrapped");
    let lines = |command: &str| -> Vec<String> {
        let table = format!("0 7 * * * {command}\n");
        let output = agenda.run_with(&["-", "2026-11-16", "2026-11-16"], table.as_bytes());
        let (text, _, _) = all(&output);
        let (_, job) = text.split_once("16 Mon  07:00  ").expect("a firing");
        job.lines().map(str::to_string).collect()
    };
    let under = |text: &str| format!("{:17}{text}", "");
    for letter in ["x", "\u{e9}", "\u{20ac}", "\u{1f319}"] {
        let of = |count: usize| letter.repeat(count);
        assert_eq!(lines(&of(57)), [of(57)]);
        assert_eq!(lines(&of(58)), [of(57), under(letter)]);
        assert_eq!(lines(&of(113)), [of(57), under(&of(55)), under(letter)]);
        let two = |first: usize, blanks: usize, second: usize| {
            lines(&format!("{}{:blanks$}{}", of(first), "", of(second)))
        };
        assert_eq!(two(28, 1, 28), [format!("{} {}", of(28), of(28))]);
        assert_eq!(two(28, 2, 28), [of(28), under(&of(28))]);
        assert_eq!(two(57, 3, 2), [of(57), under(&of(2))]);
        assert_eq!(two(1, 1, 60), [of(1), under(&of(55)), under(&of(5))]);
        assert_eq!(two(3, 60, 3), [of(3), under(&of(3))]);
    }
    assert_eq!(lines("a  b\tc \t "), ["a  b c"]);
    assert_eq!(lines("%input"), ["(an empty command)"]);
}

/// Entries that follow each other and fire alike stand under the same words.
#[test]
fn what_is_often_stands_once() {
    let agenda = agenda_in("agenda-often");
    let table = b"@hourly u:g/c a\n0 * * * *\tu\tb \n0 0-3 * * * root four\n0 0-4 * * * root five\n0 * * * * u c\n";
    let text = agenda_of(
        &agenda,
        &["-s", "-", "2026-11-16", "2026-11-16T03:00"],
        table,
    );
    let page = "Agenda of -
2026-11-16 to 2026-11-16 03:00, UTC

Often

hourly at :00, 4 times:
    u:g/c  a
    u  b
at 00:00, 01:00, 02:00, 03:00 and 04:00 every day, 4 times:
    root  five
hourly at :00, 4 times:
    u  c

November 2026

16 Mon  00:00  root  four
        01:00  root  four
        02:00  root  four
        03:00  root  four
";
    assert_eq!(text, page);
}

/// Without entries, at boot alone, and no more before the calendar's end.
#[test]
fn sections_that_are_empty_are_left_out() {
    let agenda = agenda_in("agenda-empty");
    let rows: [(&str, &str); 4] = [
        ("", "The table has no entries.\n"),
        ("# c\nA=b\n", "The table has no entries.\n"),
        ("@reboot a\n@reboot b\n", "At boot\n\na\nb\n"),
        (
            "0 0 1 1 * a\n",
            "Not in this span\n\nfires no more         a\n",
        ),
    ];
    for (table, rest) in rows {
        let span = ["-", "9999-12-30", "9999-12-31"];
        let title = "Agenda of -\n9999-12-30 to 9999-12-31, UTC\n\n";
        assert_eq!(
            agenda_of(&agenda, &span, table.as_bytes()),
            title.to_string() + rest
        );
    }
}
