//! Faults of words, bytes and whole lines, by each rule, and that every bad line is told.

use super::{check_in, says, short};

/// Faults of words, bytes and whole lines.
#[test]
fn other_faults_are_told_in_the_library_s_words() {
    let check = check_in("check-others");
    let words = "is not one of @reboot, @yearly, @annually, @monthly, @weekly, @daily, @midnight and @hourly";
    let offset = "not an offset from UTC: CRON_TZ is -12:00 to +14:00, as +05:30, with a sign and two digits each";
    let control = "the line has a control byte: of those below 32, and 127, it may have tabs only";
    let rows: [(Vec<u8>, String); 15] = [
        (
            b"\0".to_vec(),
            "1:1: error: the line has a byte 0 [3]".into(),
        ),
        (
            b"A=b\n#a\0\x01\n".to_vec(),
            "2:3: error: the line has a byte 0 [3]".into(),
        ),
        (
            b"@noon x\n".to_vec(),
            format!("1:1: error: '@noon' {words} [10]"),
        ),
        (b" @\n".to_vec(), format!("1:2: error: '@' {words} [10]")),
        (
            b"\nCRON_TZ=Japan\n".to_vec(),
            format!("2:9: error: 'Japan' is {offset} [25]"),
        ),
        (
            b"CRON_TZ = '+5:30'\n".to_vec(),
            format!("1:11: error: ''+5:30'' is {offset} [25]"),
        ),
        (b"CRON_TZ=\n".to_vec(), format!("1:9: error: {offset} [25]")),
        (
            b"#\x01\n".to_vec(),
            format!("1:2: error: {control} (byte 1, 0x01) [27]"),
        ),
        (
            b"A=b\nA=b\x7f\n".to_vec(),
            format!("2:4: error: {control} (byte 127, 0x7f) [27]"),
        ),
        (
            b"#a\rb\n".to_vec(),
            format!("1:3: error: {control} (byte 13, 0x0d) [27]"),
        ),
        (
            b"A=b\n@hourly x".to_vec(),
            "2:10: error: no newline at the end: the table may have been cut [26]".into(),
        ),
        (
            format!("\n#{}\n", "x".repeat(1203)).into(),
            "2:1001: error: the line has 1204 bytes, more than 1000 [2]".into(),
        ),
        (
            "#\n".repeat(24577).into(),
            "0:0: error: the table has more than 49152 bytes [1]".into(),
        ),
        (
            vec![b'\n'; 49153],
            "0:0: error: the table has more than 49152 bytes [1]".into(),
        ),
        (
            "@reboot x\n".repeat(513).into(),
            "513:1: error: more than 512 entries [12]".into(),
        ),
    ];
    for (table, told) in rows {
        assert_eq!(short(&check, &[], &table), [format!("t:{told}")]);
        let summary = "\nt: refused: 1 error\n";
        assert!(says(&check, &[], &table).0.ends_with(summary), "{told}");
    }
}

/// In a system table, and in the wrapping dialect.
#[test]
fn what_is_said_goes_by_the_rules() {
    let check = check_in("check-rules");
    let user = "is not a user column: user, user:group, user/class or user:group/class, each of 1 to 32 letters, digits, \
        _, - and ., and - not first";
    let rows: [(&[&str], &str, String); 10] = [
        (
            &["-s"],
            "0 0 * * * demo",
            "1:15: error: no command after the user [9]".into(),
        ),
        (
            &["-s"],
            "@daily demo ",
            "1:13: error: no command after the user [9]".into(),
        ),
        (
            &["-s"],
            "0 0 * * *",
            "1:10: error: no user and no command after the time [9]".into(),
        ),
        (
            &["-s"],
            "@daily",
            "1:7: error: no user and no command after the time [9]".into(),
        ),
        (
            &["-s"],
            "0 0 * * * -u demo",
            format!("1:11: error: '-u' {user} [20]"),
        ),
        (
            &["-s"],
            "60 0 * * * -u",
            "1:1: error: minute: 60 is outside 0-59 [6]".into(),
        ),
        (
            &["--dialect=wrapping"],
            "0 0 * * 7 x",
            "1:9: error: weekday: 7 is outside 0-6 [6]".into(),
        ),
        (
            &["--dialect=wrapping"],
            "0 0 * * 5-7 x",
            "1:9: error: weekday: 7 is outside 0-6 [6]".into(),
        ),
        (
            &["--dialect=wrapping"],
            "0 22-3/0 * * * x",
            "1:3: error: hour: 22-3/0 has a step of 0 [8]".into(),
        ),
        (
            &["--dialect=wrapping"],
            "0 24 * * * x",
            "1:3: error: hour: 24 is outside 0-23 [6]".into(),
        ),
    ];
    for (options, line, told) in rows {
        let found = short(&check, options, format!("{line}\n"));
        assert_eq!(found, [format!("t:{told}")], "{line}");
    }
}

/// Every bad line, in order; where the table as a whole is to blame, that is told at its line, and once.
#[test]
fn every_bad_line_is_told() {
    let check = check_in("check-every");
    let cut = "error: no newline at the end: the table may have been cut [26]";
    let outside = "error: minute: 60 is outside 0-59 [6]";
    let many = "error: more than 512 entries [12]";
    let full = "@reboot x\n".repeat(512);
    let rows: [(String, Vec<String>); 7] = [
        (
            "60 * * * * a\nA=b\n60 * * * * a\n".into(),
            vec![format!("1:1: {outside}"), format!("3:1: {outside}")],
        ),
        (
            "60 * * * * a\n@reboot x".into(),
            vec![format!("1:1: {outside}"), format!("2:10: {cut}")],
        ),
        (
            "@reboot x\n60 * * * * a".into(),
            vec![format!("2:1: {outside}")],
        ),
        ("@reboot x\n# a".into(), vec![format!("2:4: {cut}")]),
        (format!("{full}{full}"), vec![format!("513:1: {many}")]),
        (
            format!("{full}\n@reboot y\n60 * * * * a\n@reboot z"),
            vec![
                format!("514:1: {many}"),
                format!("515:1: {outside}"),
                format!("516:10: {cut}"),
            ],
        ),
        // A bad line comes before the 513th entry, which isn't one any more.
        (
            format!("60 * * * * a\n{full}@reboot y\n"),
            vec![format!("1:1: {outside}")],
        ),
    ];
    for (table, told) in rows {
        let told: Vec<String> = told.iter().map(|told| format!("t:{told}")).collect();
        assert_eq!(short(&check, &[], &table), told);
        let summary = match told.len() {
            1 => "\nt: refused: 1 error\n".to_string(),
            count => format!("\nt: refused: {count} errors\n"),
        };
        let (text, status) = says(&check, &[], &table);
        assert!(text.ends_with(&summary), "{text}");
        assert_eq!(status, Some(1));
    }
}
