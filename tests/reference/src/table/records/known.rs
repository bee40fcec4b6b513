//! Tables, lines and records written by hand, from the ticket's words.

/// Bytes from a dump: pairs of hex digits. What stands behind a `|` says what they are.
pub fn hex(dump: &str) -> Vec<u8> {
    let digits = dump.lines().flat_map(|line| {
        let (digits, _) = line.split_once('|').unwrap_or((line, ""));
        digits.split_whitespace()
    });
    digits
        .map(|pair| u8::from_str_radix(pair, 16).expect("two hex digits"))
        .collect()
}

/// A table, its normal text and its records.
pub const TABLE: &str = "# evening\nMAILTO = duty\n@reboot heaters on\n*/15 6,18 1,15 * sun vent\n";
pub const TEXT: &str = "MAILTO=duty\n@reboot heaters on\n*/15 6,18 1,15 * 0 vent\n";
pub const RECORDS: &str = "
    0e 00                         | 14 bytes follow
    03 00                         | kind 3
    06 00                         | the name has 6 bytes
    4d 41 49 4c 54 4f             | MAILTO
    64 75 74 79                   | duty
    0c 00                         | 12 bytes follow
    02 00                         | kind 2
    68 65 61 74 65 72 73 20 6f 6e | heaters on
    1a 00                         | 26 bytes follow
    01 00                         | kind 1
    01 80 00 40 00 20 00 00       | minutes 0, 15, 30, 45
    40 00 04 00                   | hours 6, 18
    02 80 00 00                   | days 1, 15
    fe 1f                         | months 1 to 12
    01                            | weekday 0
    09                            | stars of minute and month
    76 65 6e 74                   | vent";

/// Lines, each with its normal text and its record.
pub const LINES: [(&str, &str, &str); 22] = [
    ("# a", "", ""),
    // Every value of every field, with stars and without; the last value of each.
    (
        "* * * * * a",
        "* * * * * a\n",
        "17 00 01 00 ff ff ff ff ff ff ff 0f ff ff ff 00 fe ff ff ff fe 1f 7f 1f 61",
    ),
    (
        "0-59 0-23 * 1-12 0-7 a",
        "0,1,2,3,4,5,6,7,8,9,10,11,12,13,14,15,16,17,18,19,20,21,22,23,24,25,26,27,28,29,30,31,32,33,34,35,36,37,38,39,40,41,42,43,44,45,46,47,48,49,50,51,52,53,54,55,56,57,58,59 0,1,2,3,4,5,6,7,8,9,10,11,12,13,14,15,16,17,18,19,20,21,22,23 * 1,2,3,4,5,6,7,8,9,10,11,12 0,1,2,3,4,5,6 a\n",
        "17 00 01 00 ff ff ff ff ff ff ff 0f ff ff ff 00 fe ff ff ff fe 1f 7f 04 61",
    ),
    (
        "59 23 31 dec sat a",
        "59 23 31 12 6 a\n",
        "17 00 01 00 00 00 00 00 00 00 00 08 00 00 80 00 00 00 00 80 00 10 40 00 61",
    ),
    // Each star alone.
    (
        "*/60 0 1 1 7 a",
        "*/60 0 1 1 0 a\n",
        "17 00 01 00 01 00 00 00 00 00 00 00 01 00 00 00 02 00 00 00 02 00 01 01 61",
    ),
    (
        "0 */9999 1 1 7 a",
        "0 */24 1 1 0 a\n",
        "17 00 01 00 01 00 00 00 00 00 00 00 01 00 00 00 02 00 00 00 02 00 01 02 61",
    ),
    (
        "0 0 */31 1 7 a",
        "0 0 */31 1 0 a\n",
        "17 00 01 00 01 00 00 00 00 00 00 00 01 00 00 00 02 00 00 00 02 00 01 04 61",
    ),
    (
        "0 0 1 */12 7 a",
        "0 0 1 */12 0 a\n",
        "17 00 01 00 01 00 00 00 00 00 00 00 01 00 00 00 02 00 00 00 02 00 01 08 61",
    ),
    (
        "0 0 1 1 */8 a",
        "0 0 1 1 */7 a\n",
        "17 00 01 00 01 00 00 00 00 00 00 00 01 00 00 00 02 00 00 00 02 00 01 10 61",
    ),
    // The lowest bit of each byte but the first.
    (
        "8,16,24,32,40,48,56 8,16 8,16,24 8 fri-sun \\%",
        "8,16,24,32,40,48,56 8,16 8,16,24 8 0,5,6 \\%\n",
        "18 00 01 00 00 01 01 01 01 01 01 01 00 01 01 00 00 01 01 01 00 01 61 00 5c 25",
    ),
    // Words, and commands as they are.
    (
        "@hourly a%b",
        "0 * * * * a%b\n",
        "19 00 01 00 01 00 00 00 00 00 00 00 ff ff ff 00 fe ff ff ff fe 1f 7f 1e 61 25 62",
    ),
    (
        "@weekly b ",
        "0 0 * * 0 b \n",
        "18 00 01 00 01 00 00 00 00 00 00 00 01 00 00 00 fe ff ff ff fe 1f 01 0c 62 20",
    ),
    ("@reboot\ta  b ", "@reboot a  b \n", "07 00 02 00 61 20 20 62 20"),
    // Settings without their quotes.
    ("A=", "A=\n", "05 00 03 00 01 00 41"),
    ("A = 'b'", "A=b\n", "06 00 03 00 01 00 41 62"),
    ("'a =' = \" b\"", "\"a =\"=\" b\"\n", "09 00 03 00 03 00 61 20 3d 20 62"),
    ("'\"' = ", "'\"'=\n", "05 00 03 00 01 00 22"),
    ("A = b\"'", "A=b\"'\n", "08 00 03 00 01 00 41 62 22 27"),
    ("'1'=' '", "\"1\"=\" \"\n", "06 00 03 00 01 00 31 20"),
    // CRON_TZ, which is a kind of its own, and a name that only looks like it.
    (
        "CRON_TZ = '+05:30'",
        "CRON_TZ=+05:30\n",
        "11 00 04 00 07 00 43 52 4f 4e 5f 54 5a 2b 30 35 3a 33 30",
    ),
    (
        "'CRON_TZ'=-00:00",
        "CRON_TZ=-00:00\n",
        "11 00 04 00 07 00 43 52 4f 4e 5f 54 5a 2d 30 30 3a 30 30",
    ),
    ("cron_tz=x", "cron_tz=x\n", "0c 00 03 00 07 00 63 72 6f 6e 5f 74 7a 78"),
];

/// Records with the number of the first bad one, and their text or its refusal.
pub const REFUSED: [(&str, u64, Result<&str, u64>); 22] = [
    ("", 0, Ok("")),
    ("02 00 00 80", 0, Ok("")),
    // Less than a length, a length below 2, fewer bytes than it says, whatever the kind is.
    ("00", 1, Err(22)),
    ("05", 1, Err(22)),
    ("00 00", 1, Err(22)),
    ("01 00", 1, Err(22)),
    ("00 00 02 00 61", 1, Err(22)),
    ("01 00 02 00 61", 1, Err(22)),
    ("03 00 00 00", 1, Err(22)),
    ("03 00 02 00", 1, Err(22)),
    ("ff ff 05 00", 1, Err(22)),
    ("03 01 00 80 61", 1, Err(22)),
    // Unknown kinds, and one that is skipped.
    ("02 00 00 00", 1, Err(23)),
    ("02 00 05 00", 1, Err(23)),
    ("02 00 00 01", 1, Err(23)),
    ("02 00 ff 7f", 1, Err(23)),
    ("03 00 02 00 61 02 00 00 80", 0, Ok("@reboot a\n")),
    // The first bad record decides, and its number counts a skipped one.
    ("03 00 02 00 61 02 00 00 80 02 00 05 00 00", 3, Err(23)),
    ("03 00 02 00 61 02 00 00 80 02 00 02 00 00", 3, Err(24)),
    ("03 00 02 00 61 02 00 00 80 00 00 02 00 04", 3, Err(22)),
    ("02 00 02 00 02 00 05 00 00", 1, Err(24)),
    ("02 00 05 00 02 00 02 00 00", 1, Err(23)),
];

/// Records of the kinds 2, 3 and 4 that no line could mean.
pub const NO_LINES: [&str; 43] = [
    // @reboot with no command, with a blank before it, a byte 0, a newline
    "02 00 02 00",
    "03 00 02 00 20",
    "04 00 02 00 09 61",
    "03 00 02 00 00",
    "04 00 02 00 61 0a",
    // no length of a name, one past the body, an empty name
    "02 00 03 00",
    "03 00 03 00 01",
    "04 00 03 00 01 00",
    "05 00 03 00 02 00 41",
    "05 00 03 00 01 01 41",
    "04 00 03 00 00 00",
    "05 00 03 00 00 00 41",
    // a byte 0 or a newline in a name, in a value
    "05 00 03 00 01 00 00",
    "05 00 03 00 01 00 0a",
    "06 00 03 00 01 00 41 00",
    "06 00 03 00 01 00 41 0a",
    // a control byte in a command, in a name, in a value
    "03 00 02 00 01",
    "04 00 02 00 61 0d",
    "04 00 02 00 61 7f",
    "05 00 03 00 01 00 08",
    "05 00 03 00 01 00 1f",
    "06 00 03 00 01 00 41 0b",
    "06 00 03 00 01 00 41 7f",
    "12 00 04 00 07 00 43 52 4f 4e 5f 54 5a 2b 30 35 3a 33 30 0d",
    // both quotes in a name; in a value that starts with a blank or a quote, or ends with a blank
    "06 00 03 00 02 00 22 27",
    "07 00 03 00 03 00 41 22 27",
    "07 00 03 00 01 00 41 22 27",
    "08 00 03 00 01 00 41 20 22 27",
    "08 00 03 00 01 00 41 22 27 20",
    "08 00 03 00 01 00 41 27 22 09",
    // CRON_TZ as kind 3, with a good value and with none
    "11 00 03 00 07 00 43 52 4f 4e 5f 54 5a 2b 30 35 3a 33 30",
    "0b 00 03 00 07 00 43 52 4f 4e 5f 54 5a",
    // another name as kind 4, and no name
    "05 00 04 00 01 00 41",
    "11 00 04 00 07 00 63 72 6f 6e 5f 74 7a 2b 30 35 3a 33 30",
    "12 00 04 00 08 00 43 52 4f 4e 5f 54 5a 20 2b 30 35 3a 33 30",
    "02 00 04 00",
    "04 00 04 00 00 00",
    "0a 00 04 00 00 00 2b 30 35 3a 33 30",
    "0a 00 04 00 07 00 43 52 4f 4e 5f 54",
    // a value that is no offset: none, +14:01, -12:01, with a blank before it
    "0b 00 04 00 07 00 43 52 4f 4e 5f 54 5a",
    "11 00 04 00 07 00 43 52 4f 4e 5f 54 5a 2b 31 34 3a 30 31",
    "11 00 04 00 07 00 43 52 4f 4e 5f 54 5a 2d 31 32 3a 30 31",
    "12 00 04 00 07 00 43 52 4f 4e 5f 54 5a 20 2b 30 35 3a 33 30",
];

/// The body of `0 0 1 1 0 a`.
const BODY: &str = "01 00 00 00 00 00 00 00 01 00 00 00 02 00 00 00 02 00 01 00 61";

/// Each of these bytes in the place of that body's makes it bad.
const BAD_BYTES: [(usize, &str); 30] = [
    // an empty set
    (0, "00"),
    (8, "00"),
    (12, "00"),
    (16, "00"),
    (18, "00"),
    // a value that the field doesn't have: minutes 60 to 63, hours 24 to 31, day 0, months 0 and 13 to 15, weekday 7
    (7, "10"),
    (7, "20"),
    (7, "40"),
    (7, "80"),
    (11, "01"),
    (11, "02"),
    (11, "80"),
    (12, "03"),
    (12, "01"),
    (16, "03"),
    (17, "20"),
    (17, "40"),
    (17, "80"),
    (18, "80"),
    (18, "81"),
    // flags above bit 4
    (19, "20"),
    (19, "40"),
    (19, "80"),
    // a command that starts with a blank, or has a byte 0 or a newline
    (20, "20"),
    (20, "09"),
    (20, "00"),
    (20, "0a"),
    (20, "61 00"),
    (20, "61 0a"),
    (20, "61 0a 61"),
];

/// Stars whose values no step gives: 1; 0 and 1; all but the last; 2 of the days; all but the last of the others.
const BAD_STARS: [&str; 8] = [
    "02 00 00 00 00 00 00 00 01 00 00 00 02 00 00 00 02 00 01 01 61",
    "03 00 00 00 00 00 00 00 01 00 00 00 02 00 00 00 02 00 01 01 61",
    "ff ff ff ff ff ff ff 07 01 00 00 00 02 00 00 00 02 00 01 01 61",
    "01 00 00 00 00 00 00 00 ff ff 7f 00 02 00 00 00 02 00 01 02 61",
    "01 00 00 00 00 00 00 00 01 00 00 00 04 00 00 00 02 00 01 04 61",
    "01 00 00 00 00 00 00 00 01 00 00 00 02 00 00 00 fe 0f 01 08 61",
    "01 00 00 00 00 00 00 00 01 00 00 00 02 00 00 00 02 00 3f 10 61",
    "01 00 00 00 00 00 00 00 01 00 00 00 02 00 00 00 02 00 02 10 61",
];

/// Records of kind 1 that no line could mean: a bad byte or a bad star; too short, or without a command.
pub fn bad_entries() -> Vec<Vec<u8>> {
    let body: Vec<&str> = BODY.split(' ').collect();
    let bytes = BAD_BYTES.map(|(at, byte)| [&body[..at], &[byte], &body[at + 1..]].concat());
    let short = (0..body.len()).map(|length| body[..length].to_vec());
    let stars = BAD_STARS.map(|star| star.split(' ').collect());
    let all = bytes.into_iter().chain(short).chain(stars);
    all.map(|body| {
        let digits = body.join(" ");
        let length = 2 + hex(&digits).len();
        hex(&format!("{length:02x} 00 01 00 {digits}"))
    })
    .collect()
}
