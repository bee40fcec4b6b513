//! Words that were written by hand.

use super::{explained, words};
use c::Subcommand;

/// Times and their words. Several spellings of one entry stand in a row.
const ROWS: [(&[&str], &str); 45] = [
    (&["@reboot"], "at boot"),
    (
        &["* * * * *", "0-59 0-23 1-31 1-12 0-7", "*/1 * * * *"],
        "every minute",
    ),
    (
        &["*/5 * * * *", "0,5,10,15,20,25,30,35,40,45,50,55 * * * *"],
        "every 5 minutes",
    ),
    (&["*/2 * * * *"], "every 2 minutes"),
    (&["1-59/2 * * * *"], "every 2 minutes from :01"),
    (&["0,30 * * * *"], "every 30 minutes"),
    (&["15,45 * * * *"], "every 30 minutes from :15"),
    (
        &["@hourly", "0 * * * *", "*/60 0-23 * * 0-6"],
        "hourly at :00",
    ),
    (&["10 * * * *"], "hourly at :10"),
    (&["0,1,5 * * * *"], "hourly at :00, :01 and :05"),
    (&["0-9,30 * * * *"], "hourly at :00 to :09 and :30"),
    (&["*/25 * * * *"], "hourly at :00, :25 and :50"),
    (&["0 */2 * * *"], "every 2 hours from 00:00"),
    (&["7 1-23/3 * * *"], "every 3 hours from 01:07"),
    (
        &["0 */4 * * *"],
        "at 00:00, 04:00, 08:00, 12:00, 16:00 and 20:00 every day",
    ),
    (
        &["0 */5 * * *"],
        "at 00:00, 05:00, 10:00, 15:00 and 20:00 every day",
    ),
    (&["@daily", "@midnight", "0 0 * * *"], "at 00:00 every day"),
    (&["30 4,16 * * *"], "at 04:30 and 16:30 every day"),
    (
        &["0,30 4,16 * * *"],
        "at 04:00, 04:30, 16:00 and 16:30 every day",
    ),
    (&["*/5 8-17 * * *"], "every 5 minutes in the hours 8 to 17"),
    (
        &["0 9-17 * * 1-5"],
        "hourly from 09:00 to 17:00 on Mondays to Fridays",
    ),
    (&["15 0-22 * * *"], "hourly from 00:15 to 22:15"),
    (&["* 4 * * *"], "every minute in the hour 4"),
    (
        &["* 22,23,0 * * *"],
        "every minute in the hours 0, 22 and 23",
    ),
    (
        &["10,20 8-10,20 * * *"],
        "at :10 and :20 in the hours 8 to 10 and 20 every day",
    ),
    (
        &["0 0 1 1 *", "@yearly", "@annually"],
        "at 00:00 on the 1st of January",
    ),
    (&["@monthly"], "at 00:00 on the 1st"),
    (
        &["@weekly", "0 0 * * 7", "0 0 * * sun"],
        "at 00:00 on Sundays",
    ),
    // The papers' own, and the rule that people get wrong most: a star makes it both, no star makes it either.
    (
        &["30 4 1,15 * 5"],
        "at 04:30 on the 1st and 15th, and on every Friday",
    ),
    (
        &["0 0 */2 * 1"],
        "at 00:00 on Mondays that are odd days of the month",
    ),
    (
        &["0 0 1-31/2 * 1"],
        "at 00:00 on odd days of the month, and on every Monday",
    ),
    (
        &["0 0 1-7 * */7"],
        "at 00:00 on Sundays that are the 1st to 7th of the month",
    ),
    (&["0 0 1-31 * 1", "0 0 1 * 0-6"], "at 00:00 every day"),
    (&["0 0 * * 1-5"], "at 00:00 on Mondays to Fridays"),
    (&["0 0 * * fri-sun"], "at 00:00 on Fridays to Sundays"),
    (
        &["0 0 * * 0,1,3"],
        "at 00:00 on Mondays, Wednesdays and Sundays",
    ),
    (
        &["0 0 1-3,11-13,21-23,30,31 * *"],
        "at 00:00 on the 1st to 3rd, 11th to 13th, 21st to 23rd, 30th and 31st",
    ),
    (&["0 0 2-30/2 * *"], "at 00:00 on even days of the month"),
    (
        &["0 0 2-30/2 6,9 *"],
        "at 00:00 on even days of June and September",
    ),
    (&["0 12 29 2 *"], "at 12:00 on the 29th of February"),
    (
        &["0 12 29 2 2"],
        "at 12:00 on the 29th, and on every Tuesday, in February",
    ),
    (
        &["0 12 */28 2 2"],
        "at 12:00 on Tuesdays that are the 1st and 29th of February",
    ),
    (
        &["0 6 * 1,2,11,12 *"],
        "at 06:00 every day in January, February, November and December",
    ),
    (&["*/10 * * mar-may *"], "every 10 minutes in March to May"),
    (&["0 6 * 5 1,2"], "at 06:00 on Mondays and Tuesdays in May"),
];

#[test]
fn words_are_those_of_the_table() {
    let explain = Subcommand::new("explain", "explain-known");
    let spellings = || {
        ROWS.iter()
            .flat_map(|(times, words)| times.iter().map(move |time| (time, words)))
    };
    let table: String = spellings().map(|(time, _)| format!("{time} x\n")).collect();
    let found = words(&explain, &[], table.as_bytes());
    assert_eq!(found.len(), spellings().count());
    for ((time, words), found) in spellings().zip(found) {
        assert_eq!(&found, words, "{time}");
    }
}

/// An entry's line, its clock, its next firing by both clocks, its command with its user, and what that reads.
#[test]
fn an_entry_is_told_whole() {
    let explain = Subcommand::new("explain", "explain-whole");
    let table = b"# one\n@reboot\ta%b%%c d%\n\nCRON_TZ=+12:45\n0 7 * * mon  root  wash\t it\n0 0 30 2 * me never\nCRON_TZ=-00:00\n@daily me x\n";
    let rows = |rows: &[(&str, &[&str])]| {
        let row = |(first, below): &(&str, &[&str])| {
            (
                first.to_string(),
                below
                    .iter()
                    .map(|line| line.to_string())
                    .collect::<Vec<String>>(),
            )
        };
        rows.iter().map(row).collect::<Vec<_>>()
    };
    let from = ["--from", "2026-11-15"];
    assert_eq!(
        explained(&explain, &from, table),
        rows(&[
            ("line 2: at boot", &["a", "< b", "<", "< c d", "<"]),
            (
                "line 5: at 07:00 on Mondays, by the clock +12:45",
                &[
                    "next 2026-11-15 Sun 18:15, by its clock 2026-11-16 Mon 07:00",
                    "root  wash  it"
                ],
            ),
            (
                "line 6: at 00:00 on the 30th of February, by the clock +12:45",
                &["never fires", "me never"]
            ),
            (
                "line 8: at 00:00 every day, by the clock +00:00",
                &[
                    "next 2026-11-15 Sun 00:00, by its clock 2026-11-15 Sun 00:00",
                    "me x"
                ],
            ),
        ])
    );
    let system = b"@reboot root on\n5 4 * * * u:g/c  off\n";
    assert_eq!(
        explained(&explain, &[&from[..], &["-s"]].concat(), system),
        rows(&[
            ("line 1: at boot", &["root  on"]),
            (
                "line 2: at 04:05 every day",
                &["next 2026-11-15 Sun 04:05", "u:g/c  off"]
            ),
        ])
    );
    let wrapping = words(
        &explain,
        &["--dialect", "wrapping"],
        b"0 22-1 * nov-jan * x\n",
    );
    assert_eq!(
        wrapping,
        ["at 00:00, 01:00, 22:00 and 23:00 every day in January, November and December"]
    );
}
