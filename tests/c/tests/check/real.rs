//! Crontabs as people have them.

use super::{check_in, says, short};

/// As Debian has it in /etc/crontab.
const DEBIAN: &str = "\
# /etc/crontab: system-wide crontab
SHELL=/bin/sh
# You can also override PATH, but by default, newer versions inherit it from the environment
#PATH=/usr/local/sbin:/usr/local/bin:/sbin:/bin:/usr/sbin:/usr/bin

# Example of job definition:
# .---------------- minute (0 - 59)
# |  .------------- hour (0 - 23)
# |  |  .---------- day of month (1 - 31)
# |  |  |  .------- month (1 - 12) OR jan,feb,mar,apr ...
# |  |  |  |  .---- day of week (0 - 6) (Sunday=0 or 7) OR sun,mon,tue,wed,thu,fri,sat
# |  |  |  |  |
# *  *  *  *  * user-name command to be executed
17 *\t* * *\troot\tcd / && run-parts --report /etc/cron.hourly
25 6\t* * *\troot\ttest -x /usr/sbin/anacron || { cd / && run-parts --report /etc/cron.daily; }
47 6\t* * 7\troot\ttest -x /usr/sbin/anacron || { cd / && run-parts --report /etc/cron.weekly; }
52 6\t1 * *\troot\ttest -x /usr/sbin/anacron || { cd / && run-parts --report /etc/cron.monthly; }
#
";

#[test]
fn debian_s_system_table() {
    let check = check_in("check-debian");
    assert_eq!(
        says(&check, &["-s"], DEBIAN),
        ("t: 4 entries\n".into(), Some(0))
    );
    // As a user's it is taken, and each of its users is told.
    let told = short(&check, &[], DEBIAN);
    let user = "warning: the command is 'root': is this a system table? (--system) [user]";
    let expected = [("14", 12), ("15", 12), ("16", 12), ("17", 12)];
    assert_eq!(
        told,
        expected.map(|(line, column)| format!("t:{line}:{column}: {user}"))
    );
    // A user's table isn't a system's.
    let (text, status) = says(
        &check,
        &["-s"],
        "0 5 * * 1 tar -zcf /var/backups/home.tgz /home/\n*/10 * * * * ~/bin/poll\n",
    );
    let bad = "\
t:2:14: error: '~/bin/poll' is not a user column: user, user:group, user/class or user:group/class, each of 1 to 32 letters, \
digits, _, - and ., and - not first [20]
    */10 * * * * ~/bin/poll
                 ^~~~~~~~~~
    hint: in a system table a user stands before the command
t: refused: 1 error
";
    assert_eq!((text.as_str(), status), (bad, Some(1)));
}

/// Saved by an editor of DOS, and one that marks UTF-8.
#[test]
fn files_of_other_systems() {
    let check = check_in("check-foreign");
    let control = "error: the line has a control byte: of those below 32, and 127, it may have tabs only (byte 13, 0x0d) [27]";
    let text = format!(
        "t:1:22: {control}\n    MAILTO=me@example.org?\n                         ^\n    \
         hint: lines end in LF, without a CR before it: tr -d '\\r' takes them away\n\
         t:2:18: {control}\n    */5 * * * * check?\n                     ^\n\
         t: refused: 2 errors\n"
    );
    let table = "MAILTO=me@example.org\r\n*/5 * * * * check\r\n";
    assert_eq!(says(&check, &[], table), (text, Some(1)));
    let text = "\
t:1:1: error: neither an entry nor a setting, which is name=value [11]
    ?*/5 * * * * check
    ^~~~
    hint: the line starts with a byte order mark (BOM): take its three bytes away
t: refused: 1 error
";
    let table = "\u{feff}*/5 * * * * check\n@daily rotate\n";
    assert_eq!(says(&check, &[], table), (text.into(), Some(1)));
}

/// A shell's habits.
#[test]
fn a_shell_s_habits() {
    let check = check_in("check-shell");
    let table = "export PATH=/usr/bin:/bin\nMAILTO=\"me\nHOME=\"/var/www\" # for the site\n0 4 * * * $HOME/bin/backup\n";
    let neither = "error: neither an entry nor a setting, which is name=value [11]";
    let text = format!(
        "t:1:1: {neither}\n    export PATH=/usr/bin:/bin\n    ^~~~~~\n    hint: a setting is name=value, without export\n\
         t:2:1: {neither}\n    MAILTO=\"me\n    ^~~~~~~~~~\n    hint: the quote isn't closed\n\
         t:3:1: {neither}\n    HOME=\"/var/www\" # for the site\n    ^~~~~~~~~~~~~~~\n    \
         hint: only blanks may stand behind a value in quotes\nt: refused: 3 errors\n"
    );
    assert_eq!(says(&check, &[], table), (text, Some(1)));
}

/// Other crons' tables, a line each: the place and the number of each error, and some of its hint.
#[test]
fn other_crons_lines() {
    let check = check_in("check-crons");
    let rows = [
        // Quartz, with seconds first; some of its lines are good by chance, and warned of.
        ("0 0 12 * * ? job", "1:12: warning", "six-fields", "seconds"),
        (
            "0 15 10 ? * MON-FRI job",
            "1:9: error",
            "5",
            "are there six",
        ),
        ("0 0 0 1 * ? * job", "1:5: error", "6", "are there six"),
        ("0 15 10 L * ? job", "1:9: error", "5", "are there six"),
        // AWS's, with a year behind.
        ("0 10 ? * 2 job", "1:6: error", "5", "other crons write ? "),
        ("0 10 * * ? 2026 job", "1:10: error", "5", "are there six"),
        // robfig's, and systemd's.
        ("@every 1h30m job", "1:1: error", "10", "no @every"),
        ("@hourly5 job", "1:1: error", "10", ""),
        ("Mon..Fri 10:00 job", "1:1: error", "11", ""),
        // Jenkins's.
        (
            "H/15 * * * * job",
            "1:1: error",
            "11",
            "other crons write H ",
        ),
        (
            "30 H(0-5) * * * job",
            "1:4: error",
            "5",
            "other crons write H ",
        ),
        // OpenBSD's.
        ("~ 3 * * * job", "1:1: error", "11", "other crons write ~ "),
        // cronie's and Vixie's own.
        (
            "0-59/5 8-18 * * mon-friday job",
            "1:17: error",
            "5",
            "three letters",
        ),
        (
            "30 4 * * 1,thursday job",
            "1:10: error",
            "5",
            "three letters",
        ),
        ("*,30 * * * * job", "1:1: error", "5", "every value already"),
        ("0 22-6 * * * job", "1:3: error", "7", "two ranges"),
        ("0 24 * * * job", "1:3: error", "6", "midnight"),
        (
            "5 4 * * /usr/local/bin/job",
            "1:9: error",
            "5",
            "is one missing",
        ),
        ("CRON_TZ=Europe/Berlin", "1:9: error", "25", "no names"),
        (
            "-*/15 * * * * job",
            "1:1: error",
            "11",
            "an entry starts with",
        ),
        ("0 0 30 2 * job", "1:5: warning", "never", ""),
        (
            "0 0 1-7 * mon#1 job",
            "1:11: error",
            "5",
            "other crons write # ",
        ),
    ];
    for (line, start, mark, hint) in rows {
        let (text, _) = says(&check, &[], format!("{line}\n"));
        let first = text.lines().next().expect("a diagnostic");
        assert!(first.starts_with(&format!("t:{start}: ")), "{text}");
        assert!(first.ends_with(&format!(" [{mark}]")), "{text}");
        let found = text.lines().find(|line| line.contains("    hint: "));
        match hint {
            "" => assert_eq!(found, None, "{text}"),
            _ => assert!(found.is_some_and(|found| found.contains(hint)), "{text}"),
        }
    }
}
