//! Hints, where a line's bytes betray a habit: each once for a table, and none where there is no such sign.

use super::{check_in, says};

/// A line of a user table, and its hint; none is "".
const HINTS: [(&[u8], &str); 67] = [
    (
        b"\xef\xbb\xbf# a comment",
        "the line starts with a byte order mark (BOM): take its three bytes away",
    ),
    (
        b"\xef\xbb\xbf0 0 * * * x",
        "the line starts with a byte order mark (BOM): take its three bytes away",
    ),
    (
        b"A=b\r",
        "lines end in LF, without a CR before it: tr -d '\\r' takes them away",
    ),
    (
        b"0 0 * * *\r",
        "lines end in LF, without a CR before it: tr -d '\\r' takes them away",
    ),
    (b"#a\rb", ""),
    (b"#\x1b", ""),
    (
        b"*\0 \0*\0",
        "a crontab is ASCII or UTF-8; this looks like UTF-16",
    ),
    (b"#\0a", ""),
    (
        b"export PATH=/bin",
        "a setting is name=value, without export",
    ),
    (b"\texport A = b", "a setting is name=value, without export"),
    (b"exported PATH=/bin", ""),
    (b"MAILTO=\"root", "the quote isn't closed"),
    (b"MAILTO = 'root\"", "the quote isn't closed"),
    (b"'MAILTO=root", "the quote isn't closed"),
    (b"don't do this", ""),
    (
        b"MAILTO=\"root\" # me",
        "only blanks may stand behind a value in quotes",
    ),
    (b"'MAILTO' 'root'", ""),
    (b"; a comment", "a comment starts with #"),
    (b"// a comment", "a comment starts with #"),
    (b"mon * * * * x", "an entry starts with a digit, * or @"),
    (b"mon tue x", ""),
    (
        b"*,5 * * * * x",
        "* is every value already: it stands alone, or with a step as */5",
    ),
    (
        b"0 */5,7 * * * x",
        "* is every value already: it stands alone, or with a step as */5",
    ),
    (
        b"5/2 * * * * x",
        "other crons go on to the last value: write the range, as 5-59/2 for minutes",
    ),
    (
        b"0 1, 2 * * * x",
        "a list has commas between its elements only, and no blanks",
    ),
    (
        b"0 mon * * * x",
        "the fields are minute, hour, day, month, weekday; the last two have names",
    ),
    (
        b"12:30 * * * x",
        "the minute and the hour are two fields, the minute first",
    ),
    (
        b"0 0 * * monday x",
        "names have three letters, as mon and jan",
    ),
    (
        b"0 0 * 1-September * x",
        "names have three letters, as mon and jan",
    ),
    (
        b"0 0 * * /bin/x y",
        "five time fields stand before the command; is one missing?",
    ),
    (
        b"0 0 * * ~/x y",
        "five time fields stand before the command; is one missing?",
    ),
    (
        b"0 0 * * backup",
        "five time fields stand before the command; is one missing?",
    ),
    (
        b"0 0 * /bin/x y",
        "five time fields stand before the command; is one missing?",
    ),
    (
        b"0 12 ? * * x",
        "other crons write ? for any value: write *",
    ),
    (
        b"0 0 L * * x",
        "other crons write L for the last day: here days are numbers",
    ),
    (
        b"0 0 * * 5L x",
        "other crons write L for the last day: here days are numbers",
    ),
    (
        b"0 0 * * L x",
        "other crons write L for the last day: here days are numbers",
    ),
    (
        b"0 4 * ./backup",
        "five time fields stand before the command; is one missing?",
    ),
    (
        b"30 4 $HOME/bin/backup --all",
        "five time fields stand before the command; is one missing?",
    ),
    (
        b"0 0 * * jan x",
        "the fields are minute, hour, day, month, weekday; the last two have names",
    ),
    (
        b"0 0 * 1-mon * x",
        "the fields are minute, hour, day, month, weekday; the last two have names",
    ),
    // A sixth field that says more than the fault itself.
    (
        b"0 0 12 ? * MON-FRI x",
        "a time has five fields, without seconds and years; are there six?",
    ),
    (
        b"0 30 4 * * 1-5 x",
        "a time has five fields, without seconds and years; are there six?",
    ),
    // What looks like a blank, a dash or a quote.
    (
        b"0 0 * * *\xc2\xa0x",
        "a no-break space stands here: only spaces and tabs are blanks",
    ),
    (
        b"\xc2\xa00 0 * * * x",
        "a no-break space stands here: only spaces and tabs are blanks",
    ),
    (
        b"0 0 1\xe2\x80\x935 * * x",
        "a dash or a quote of an editor stands here: the plain ones are - and \" and '",
    ),
    (
        b"\xe2\x80\x9cA B\xe2\x80\x9d=c",
        "a dash or a quote of an editor stands here: the plain ones are - and \" and '",
    ),
    (
        b"0 0 * * * x\r0 0 * * * y\r",
        "lines end in LF: tr '\\r' '\\n' makes one of each CR",
    ),
    (
        b"CRON_TZ=+01:00 # Paris",
        "a value goes up to the line's end: no comment may stand behind an offset",
    ),
    (b"CRON_TZ=+15:00", ""),
    // In a range or a list it is a mistyped name.
    (b"0 0 * * mon-fry x", ""),
    (b"0 0 * * mon,wen x", ""),
    // A letter of a name is no sign.
    (
        b"0 WED * * * x",
        "the fields are minute, hour, day, month, weekday; the last two have names",
    ),
    (
        b"0 0 * * HELLO x",
        "five time fields stand before the command; is one missing?",
    ),
    (
        b"0 0 15W * * x",
        "other crons write W for the nearest workday: here days are numbers",
    ),
    (
        b"0 0 * * 1#2 x",
        "other crons write # for a month's n-th weekday: there is no such sign here",
    ),
    (
        b"0~59 * * * * x",
        "other crons write ~ for a random value: write one",
    ),
    (
        b"H * * * * x",
        "other crons write H for a value of their choice: write one",
    ),
    (
        b"0 H(0-7) * * * x",
        "other crons write H for a value of their choice: write one",
    ),
    (b"60 * * * * x", "a full hour is minute 0"),
    (b"0 24 * * * x", "midnight is hour 0"),
    (b"4 30 * * * x", "the minute stands before the hour"),
    (b"0 0 * 0 * x", "days and months count from 1"),
    (b"0 60 * * * x", ""),
    (
        b"@every 5m x",
        "there is no @every; steps do it, as */5 * * * *",
    ),
    (b"@Daily x", "these words have small letters"),
    (b"@noon x", ""),
];

/// The hint is the last line before the count, and stands below the caret.
#[test]
fn a_habit_has_its_hint() {
    let check = check_in("check-hints");
    for (line, hint) in HINTS {
        let shown = line.escape_ascii();
        let table = [b"# one\n", line, b"\n# two\n"].concat();
        let (text, status) = says(&check, &[], &table);
        let hints: Vec<&str> = text
            .lines()
            .filter_map(|line| line.strip_prefix("    hint: "))
            .collect();
        let expected: &[&str] = if hint.is_empty() { &[] } else { &[hint] };
        assert_eq!(hints, expected, "{shown}");
        assert_eq!(text.lines().count(), 4 + expected.len(), "{shown}");
        assert_eq!(status, Some(1), "{shown}");
    }
}

/// A line behind one that ends in a backslash is what should go on with it.
#[test]
fn a_command_does_not_go_on() {
    let check = check_in("check-hints-continued");
    let hint = "    hint: a command is one line: a \\ at its end doesn't join it with the next\n";
    for (line, has_hint) in [
        ("   --bar", true),
        ("7z x", true),
        ("0 x", true),
        ("0 24 * * * x", false),
    ] {
        let (text, _) = says(&check, &[], format!("0 4 * * * foo \\\n{line}\n"));
        assert!(text.starts_with("t:2:"), "{text}");
        assert_eq!(text.contains(hint), has_hint, "{text}");
        let (text, _) = says(&check, &[], format!("\n{line}\n"));
        assert!(!text.contains(hint), "{text}");
    }
}

/// By the rules of the table.
#[test]
fn some_habits_go_by_the_rules() {
    let check = check_in("check-hints-rules");
    let user = "    hint: in a system table a user stands before the command\n";
    let six = "    hint: a time has five fields, without seconds and years; are there six?\n";
    let zone =
        "    hint: zones have no names here: write what the clock is ahead of UTC, as +09:00\n";
    let ranges = "    hint: two ranges say it in either dialect, as 22-23,0-3 for 22-3\n";
    let sunday = "    hint: in the wrapping dialect Sunday is 0\n";
    let rows: [(&[&str], &str, &str); 13] = [
        (&["-s"], "0 0 * * * demo", user),
        (&["-s"], "@daily demo", user),
        (&["-s"], "0 0 * * *", ""),
        (&[], "0 0 * * *", ""),
        (&["-s"], "0 0 * * * /bin/demo x", user),
        (&["-s"], "0 0 * * * * root x", six),
        (&["-s"], "0 0 4 * * ? root x", six),
        (&[], "CRON_TZ=Japan", zone),
        (&[], "CRON_TZ='Europe/Oslo'", zone),
        (&[], "CRON_TZ=+5:30", ""),
        (&[], "0 22-3 * * * x", ranges),
        (&["--dialect=wrapping"], "0 0 * * 7 x", sunday),
        (&[], "0 0 * * 8 x", ""),
    ];
    for (options, line, hint) in rows {
        let (text, _) = says(&check, options, format!("{line}\n"));
        let end = format!("{hint}t: refused: 1 error\n");
        assert!(text.ends_with(&end), "{text}");
        assert_eq!(text.contains("hint: "), !hint.is_empty(), "{text}");
    }
}

/// Each hint stands below the first fault that it is for, and not again.
#[test]
fn a_hint_is_given_once_for_a_table() {
    let check = check_in("check-hints-once");
    let table = "export A=b\n0 24 * * * x\nexport C=d\n0 24 * * * y\n";
    let text = "\
t:1:1: error: neither an entry nor a setting, which is name=value [11]
    export A=b
    ^~~~~~
    hint: a setting is name=value, without export
t:2:3: error: hour: 24 is outside 0-23 [6]
    0 24 * * * x
      ^~
    hint: midnight is hour 0
t:3:1: error: neither an entry nor a setting, which is name=value [11]
    export C=d
    ^~~~~~
t:4:3: error: hour: 24 is outside 0-23 [6]
    0 24 * * * y
      ^~
t: refused: 4 errors
";
    assert_eq!(says(&check, &[], table), (text.to_string(), Some(1)));
    // For the next file it is given again.
    check.write("u", "0 24 * * * x\n");
    let (both, _) = c::told(&check.run(&["t", "u"]));
    assert_eq!(both.matches("hint: midnight").count(), 2, "{both}");
}
