//! Firings under an offset, and values that are none, worked out by hand.

use crate::answer::Answer;
use crate::calendar::LAST_MINUTE as LAST;

/// A value, an entry's fields, a minute in UTC, and the next firing after it. A local minute less the offset is UTC.
pub const NEXT: [(&str, &str, u64, Answer); 33] = [
    // Local midnight of 2 January, local minute 1,440, is 23:00 of the 1st in UTC.
    ("+01:00", "0 0 * * *", 0, Ok(1_440 - 60)),
    ("+01:00", "0 0 * * *", 1_380, Ok(2_880 - 60)),
    // Local midnight of 1 January, local minute 0, is 01:00 in UTC; before it the local clock shows 1969.
    ("-01:00", "0 0 * * *", 0, Ok(60)),
    ("-01:00", "0 0 * * *", 59, Ok(60)),
    ("-01:00", "0 0 * * *", 60, Ok(1_500)),
    // 06:00 in UTC is 18:00 of 31 December 1969; a day later it is 1 January.
    ("-12:00", "0 18 * * *", 0, Ok(1_080 + 720)),
    ("-12:00", "0 18 * * *", 360, Ok(1_800)),
    ("-12:00", "* * * * *", 0, Ok(720)),
    ("-12:00", "* * * * *", 719, Ok(720)),
    ("-12:00", "* * * * *", 720, Ok(721)),
    ("-00:01", "* * * * *", 0, Ok(1)),
    ("-00:02", "* * * * *", 0, Ok(2)),
    ("-00:00", "* * * * *", 0, Ok(1)),
    ("+00:00", "* * * * *", LAST, Err(17)),
    // The local clock ends 14 hours before UTC does, and 12 hours after it.
    ("+14:00", "* * * * *", LAST - 841, Ok(LAST - 840)),
    ("+14:00", "* * * * *", LAST - 840, Err(17)),
    ("+14:00", "* * * * *", LAST, Err(17)),
    ("+14:00", "* * * * *", LAST + 1, Err(14)),
    ("-12:00", "* * * * *", LAST - 1, Ok(LAST)),
    ("-12:00", "* * * * *", LAST, Err(17)),
    // The last minute of 9999 by a clock in the west is in the year 10000; that of 9998, 365 days before, isn't.
    ("-12:00", "59 23 31 12 *", LAST - 1_440, Err(17)),
    (
        "-12:00",
        "59 23 31 12 *",
        LAST - 525_600,
        Ok(LAST - 525_600 + 720),
    ),
    // The first minute of the last day, 1,439 before the last, less 14 hours.
    ("+14:00", "0 0 31 12 *", LAST - 2_280, Ok(LAST - 2_279)),
    ("+14:00", "0 0 31 12 *", LAST - 2_279, Err(17)),
    // It is 14:00 of New Year's Day; the next one is after 365 days.
    ("+14:00", "0 0 1 1 *", 0, Ok(525_600 - 840)),
    // 2000-02-29 00:00 is minute 15,863,040.
    ("+14:00", "0 0 29 2 *", 15_862_199, Ok(15_863_040 - 840)),
    ("-03:30", "0 0 29 2 *", 15_863_040, Ok(15_863_040 + 210)),
    // It is 05:45 of Thursday the 1st: 04:30 has passed, and Friday's is local minute 1,710.
    ("+05:45", "30 4 1,15 * 5", 0, Ok(1_710 - 345)),
    // Friday starts at local minute 1,440, on Thursday in UTC.
    ("+09:00", "0 0 * * 5", 0, Ok(1_440 - 540)),
    // A quarter to midnight of 31 December 1970, 15 minutes before the 365 days are over, is in 1971 in UTC.
    ("-00:30", "45 23 31 12 *", 0, Ok(525_600 - 15 + 30)),
    // Never is never by any clock, also where none shows 1970 yet or any more.
    ("-12:00", "0 0 30 2 *", 0, Err(16)),
    ("+14:00", "0 0 30 2 *", LAST, Err(16)),
    ("+14:00", "0 0 30 2 *", LAST + 1, Err(14)),
];

/// A value, an entry's fields, a minute in UTC, and whether the entry is due.
pub const DUE: [(&str, &str, u64, Answer); 16] = [
    ("-12:00", "* * * * *", 0, Ok(0)),
    ("-12:00", "* * * * *", 719, Ok(0)),
    ("-12:00", "* * * * *", 720, Ok(1)),
    ("-12:00", "0 0 1 1 *", 720, Ok(1)),
    ("-12:00", "0 0 1 1 *", 0, Ok(0)),
    ("-12:00", "0 12 31 12 *", 0, Ok(0)),
    ("+14:00", "0 14 1 1 4", 0, Ok(1)),
    ("+14:00", "0 0 1 1 *", 0, Ok(0)),
    ("+14:00", "* * * * *", LAST - 840, Ok(1)),
    ("+14:00", "59 23 31 12 *", LAST - 840, Ok(1)),
    ("+14:00", "* * * * *", LAST - 839, Ok(0)),
    ("+14:00", "* * * * *", LAST, Ok(0)),
    ("+14:00", "* * * * *", LAST + 1, Err(14)),
    ("-12:00", "59 11 31 12 *", LAST, Ok(1)),
    ("-12:00", "* * * * *", LAST + 1, Err(14)),
    ("-00:00", "0 0 * * 4", 0, Ok(1)),
];

/// A table with several offsets, and the first firings of its entries after minute 0. Each entry is midnight by its clock.
pub const SEVERAL: &str = "0 0 * * * ~utc\n\
    CRON_TZ=+02:00\n\
    0 0 * * * ~east\n\
    TZ=-05:00\n\
    0 0 * * * ~east-too\n\
    \t'CRON_TZ' = \"-02:00\" \n\
    0 0 * * * ~west\n\
    @reboot ~boot\n\
    @daily ~west-too\n\
    CRON_TZ=+14:00\n\
    \"CRON_TZ\" =\t'-00:00'\n\
    0 0 * * * ~utc-again\n\
    # CRON_TZ=+03:00\n\
    cron_tz=+03:00\n\
    0 0 * * * ~utc-still\n\
    CRON_TZ=+14:00\n";
pub const SEVERAL_NEXT: [Answer; 8] = [
    Ok(1_440),
    Ok(1_320),
    Ok(1_320),
    Ok(120),
    Err(15),
    Ok(120),
    Ok(1_440),
    Ok(1_440),
];

/// Values that are no offsets, as they stand bare behind the equals sign.
pub const NO_OFFSETS: [&str; 33] = [
    // nothing, a zone's name, a number
    "",
    "Japan",
    "UTC",
    "Z",
    "0",
    "+",
    "60",
    // past the ends, and more than 59 minutes
    "+14:01",
    "+14:59",
    "+15:00",
    "+20:00",
    "+99:59",
    "-12:01",
    "-13:00",
    "-14:00",
    "-99:00",
    "+05:60",
    "+05:99",
    "-00:60",
    "+13:60",
    // a sign, a colon or a digit that is missing or too many
    "05:30",
    "+0530",
    "+5:30",
    "+05:3",
    "+05",
    "+05:",
    "+005:30",
    "+05:300",
    "++05:30",
    "+05:30:00",
    // other bytes in their places
    "+05.30",
    "x05:30",
    "+05:30 #",
];

/// Bad lines, the number of the refusal and its column.
pub const BAD_LINES: [(&str, u64, u64); 21] = [
    ("CRON_TZ=Japan ", 25, 9),
    ("CRON_TZ=", 25, 9),
    ("CRON_TZ=  ", 25, 11),
    ("CRON_TZ = \t", 25, 12),
    ("CRON_TZ= 05:30", 25, 10),
    ("CRON_TZ=+14:01", 25, 9),
    ("CRON_TZ =  +14:01  ", 25, 12),
    (" \tCRON_TZ=x", 25, 11),
    // A quote has its own place; what it holds is the value.
    ("CRON_TZ=\"\"", 25, 9),
    ("CRON_TZ='x'", 25, 9),
    ("CRON_TZ= ' +05:30'", 25, 10),
    ("CRON_TZ=\"+05:30 \" ", 25, 9),
    ("\"CRON_TZ\"=x", 25, 11),
    ("'CRON_TZ'\t= x", 25, 13),
    ("CRON_TZ==", 25, 9),
    ("CRON_TZ= =+05:30", 25, 10),
    ("CRON_TZ=+05:30\"", 25, 9),
    // What isn't of a setting's form is 11, at its first byte that isn't blank.
    ("CRON_TZ", 11, 1),
    (" CRON_TZ +05:30", 11, 2),
    ("CRON_TZ=\"+05:30", 11, 1),
    ("CRON_TZ='+05:30' x", 11, 1),
];

/// Names as they are written that aren't this one.
pub const OTHER_NAMES: [&str; 9] = [
    "TZ",
    "cron_tz",
    "CRON_T",
    "CRON_TZ2",
    "CRONTZ",
    "CRON_TZ\u{a0}",
    "'CRON_TZ '",
    "' CRON_TZ'",
    "\"'CRON_TZ'\"",
];
