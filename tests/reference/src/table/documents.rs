//! The entries and settings that stand as examples in the documents 000 to 004, and the paper's known days.

use crate::answer::Answer;
use crate::calendar::LAST_MINUTE;

/// An entry, and its first firings after minute 0, or else its refusal with the column.
pub type Example = (&'static str, Result<&'static [u64], (u64, u64)>);

pub const ENTRIES: [Example; 37] = [
    // 000
    (
        " 5 0 * * *       $HOME/bin/daily.job >> $HOME/tmp/out 2>&1",
        Ok(&[5, 1_445]),
    ),
    (
        " 59 12 * * * simon /usr/bin/test.sh > /dev/null 2>&1",
        Ok(&[779, 2_219]),
    ),
    (" 0 21 * * * demo.sh 1>/dev/null 2>&1", Ok(&[1_260, 2_700])),
    // Its remark says Saturday; its own table has Sunday as 7.
    (
        " 0 1 * * 2-7 demo.sh 1>/dev/null 2>&1",
        Ok(&[60, 1_500, 2_940, 4_380, 7_260]),
    ),
    (
        " 30 07,09,13,15 * * * demo.sh",
        Ok(&[450, 570, 810, 930, 1_890]),
    ),
    ("* * * * *  [UserName] Command_to_execute", Ok(&[1, 2])),
    ("@reboot Run once, at startup.", Err((15, 0))),
    ("@yearly Run once a year", Ok(&[525_600, 1_051_200])),
    ("@annually (sames as @yearly)", Ok(&[525_600, 1_051_200])),
    ("@monthly Run once a month", Ok(&[44_640, 84_960])),
    ("@weekly Run once a week", Ok(&[4_320, 14_400])),
    ("@daily Run once a day", Ok(&[1_440, 2_880])),
    ("@midnight (same as @daily)", Ok(&[1_440, 2_880])),
    ("@hourly Run once an hour", Ok(&[60, 120])),
    (
        "0 */3 * * * a",
        Ok(&[180, 360, 540, 720, 900, 1_080, 1_260, 1_440]),
    ),
    // 001
    (
        "15 3 * * 1-5 find $HOME -namecore 2>/dev/null | xargs rm -f",
        Ok(&[195, 1_635, 5_955]),
    ),
    ("0 0 1,15 * 1", Err((9, 13))),
    ("0 0 1,15 * 1 a", Ok(&[5_760, 15_840, 20_160, 25_920])),
    ("0 0 * * 1", Err((9, 10))),
    ("0 0 * * 1 a", Ok(&[5_760, 15_840])),
    ("0 8-18/3,19-7 * * *", Err((7, 10))),
    ("*/2 * * * *", Err((9, 12))),
    ("*/2 * * * * a", Ok(&[2, 4])),
    ("2-59/3 * * * * a", Ok(&[2, 5, 8])),
    ("0 0 * * * echo $(date) > midnight.GMT", Ok(&[1_440, 2_880])),
    // 002
    ("0,10,20,30,40,50 * * * * /path/to/command", Ok(&[10, 20])),
    ("*/6 * * * * /path/to/command", Ok(&[6, 12])),
    ("0 8 * * 1 /path/to/command", Ok(&[6_240, 16_320])),
    // Not "the first Tuesday": the first seven days, and every Tuesday.
    (
        "30 17 1-7 * 2 /path/to/command",
        Ok(&[1_050, 2_490, 3_930, 5_370, 6_810, 8_250, 9_690, 18_330]),
    ),
    (
        "0 * * * * echo \"Hourly message.\" >> message.log",
        Ok(&[60, 120]),
    ),
    // 003
    (
        "5 0 * * *       $HOME/bin/daily.job >> $HOME/tmp/out 2>&1",
        Ok(&[5, 1_445]),
    ),
    ("15 14 1 * *     $HOME/bin/monthly", Ok(&[855, 45_495])),
    (
        "0 22 * *\t1-5   mail -s \"It's 10pm\" joe%Joe,%%Where are your kids?%",
        Ok(&[1_320, 2_760, 7_080]),
    ),
    (
        "23 0-23/2 * * * echo \"run 23 minutes after midn,\t2am, 4am ..., everyday\"",
        Ok(&[23, 143]),
    ),
    (
        "5 4 * * sun     echo \"run at 5 after 4 every sunday\"",
        Ok(&[4_565, 14_645]),
    ),
    ("30 4 1,15 * 5 a", Ok(&[270, 1_710, 11_790, 20_430, 21_870])),
    // 004
    (
        "0 12 14 2 * mailx john%Happy Birthday!%Time for lunch.",
        Ok(&[64_080, 589_680]),
    ),
];

/// A line of a system table: the user, group and class of its entry and its command, or else its refusal with the column.
pub type SystemExample = (
    &'static str,
    Result<([Option<&'static str>; 3], &'static str), (u64, u64)>,
);

/// Source 000's lines as a system table has them, and the forms and cases of ticket 2026-04.
pub const SYSTEM_ENTRIES: [SystemExample; 26] = [
    // 000
    (
        " 59 12 * * * simon /usr/bin/test.sh > /dev/null 2>&1",
        Ok((
            [Some("simon"), None, None],
            "/usr/bin/test.sh > /dev/null 2>&1",
        )),
    ),
    ("* * * * *  [UserName] Command_to_execute", Err((20, 12))),
    (
        " 5 0 * * *       $HOME/bin/daily.job >> $HOME/tmp/out 2>&1",
        Err((20, 18)),
    ),
    // The first word of a user table's command is taken for the user, where it can be one.
    (
        " 0 21 * * * demo.sh 1>/dev/null 2>&1",
        Ok(([Some("demo.sh"), None, None], "1>/dev/null 2>&1")),
    ),
    (" 30 07,09,13,15 * * * demo.sh", Err((9, 30))),
    (
        "@reboot Run once, at startup.",
        Ok(([Some("Run"), None, None], "once, at startup.")),
    ),
    ("@annually (sames as @yearly)", Err((20, 11))),
    // The forms.
    ("* * * * * u c", Ok(([Some("u"), None, None], "c"))),
    ("* * * * * u:g c", Ok(([Some("u"), Some("g"), None], "c"))),
    ("* * * * * u/l c", Ok(([Some("u"), None, Some("l")], "c"))),
    (
        "@daily\t u:g/l\t c d ",
        Ok(([Some("u"), Some("g"), Some("l")], "c d ")),
    ),
    ("@reboot 0.-_:_-:/.9- c", Err((20, 9))),
    (
        "@reboot 0.-_:_-/.9- c%d",
        Ok(([Some("0.-_"), Some("_-"), Some(".9-")], "c%d")),
    ),
    (
        "@hourly 12345678901234567890123456789012 c",
        Ok(([Some("12345678901234567890123456789012"), None, None], "c")),
    ),
    ("@hourly 123456789012345678901234567890123 c", Err((20, 9))),
    // Nothing else.
    ("* * * * * u/l:g c", Err((20, 11))),
    ("* * * * * u: c", Err((20, 11))),
    ("* * * * * :g c", Err((20, 11))),
    ("* * * * * u:/l c", Err((20, 11))),
    ("* * * * * -u c", Err((20, 11))),
    ("* * * * * u:g/-l c", Err((20, 11))),
    // After the fields and before 9.
    ("60 * * * * -u", Err((6, 1))),
    ("* * * * * -u", Err((20, 11))),
    ("* * * * * cmd", Err((9, 14))),
    ("* * * * * ", Err((9, 11))),
    ("@never -u", Err((10, 1))),
];

/// A setting, its name and its value.
pub const SETTINGS: [(&str, &str, &str); 5] = [
    (
        "MAILTO=ashley.gray@example.com",
        "MAILTO",
        "ashley.gray@example.com",
    ),
    ("MAILTO=\"\"", "MAILTO", ""),
    ("name = value", "name", "value"),
    ("SHELL=/bin/sh", "SHELL", "/bin/sh"),
    ("TZ=Iceland", "TZ", "Iceland"),
];

/// The documents name zones; ticket 2026-09 has offsets in their place. The column of the refusal.
pub const NAMED_ZONE: (&str, u64) = ("CRON_TZ=Japan ", 9);

/// The known days of the paper and its tickets: an entry's fields, a minute, and the next firing after it.
pub const KNOWN_DAYS: [(&str, u64, Answer); 17] = [
    ("0 0 29 2 *", 66_355_200, Ok(70_561_440)),
    // ticket 2026-03
    ("0 0 29 2 */7", 62_147_520, Ok(83_184_480)),
    ("0 0 */2 * 1", 0, Ok(4 * DAY)),
    ("0 0 */2 * 1", 4 * DAY, Ok(18 * DAY)),
    ("30 4 1,15 * 5", 0, Ok(270)),
    ("30 4 1,15 * 5", 270, Ok(1_710)),
    ("0 0 30 2 *", 0, Err(16)),
    ("0 0 30 2 *", LAST_MINUTE, Err(16)),
    ("0 0 30 2 *", LAST_MINUTE + 1, Err(14)),
    ("0 0 30 2 1", 0, Ok(46_080)),
    ("0 0 31 12 *", LAST_MINUTE, Err(17)),
    ("0 0 31 12 *", LAST_MINUTE - DAY, Ok(LAST_MINUTE + 1 - DAY)),
    ("* * * * *", 0, Ok(1)),
    ("* * * * *", LAST_MINUTE - 1, Ok(LAST_MINUTE)),
    ("* * * * *", LAST_MINUTE, Err(17)),
    ("* * * * *", LAST_MINUTE + 1, Err(14)),
    // ticket 2026-01; minute 0 is a Thursday
    ("0 0 * * mon-fri", DAY, Ok(4 * DAY)),
];

const DAY: u64 = 1_440;

/// The example of crontab(5), whole.
pub const VIXIE: &str = "# use /bin/sh to run commands, no matter what /etc/passwd says\n\
    SHELL=/bin/sh\n\
    # mail any output to `paul', no matter whose crontab this is\n\
    MAILTO=paul\n\
    #\n\
    # run five minutes after midnight, every day\n\
    5 0 * * *       $HOME/bin/daily.job >> $HOME/tmp/out 2>&1\n\
    # run at 2:15pm on the first of every month -- output mailed to paul\n\
    15 14 1 * *     $HOME/bin/monthly\n\
    # run at 10 pm on weekdays, annoy Joe\n\
    0 22 * * 1-5\tmail -s \"It's 10pm\" joe%Joe,%%Where are your kids?%\n\
    23 0-23/2 * * * echo \"run 23 minutes after midn, 2am, 4am ..., everyday\"\n\
    5 4 * * sun     echo \"run at 5 after 4 every sunday\"\n";
