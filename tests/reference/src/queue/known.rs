//! Ticket 2026-10 sentence by sentence: who joins at a minute, and what the mark is then. Worked out by hand.

use crate::calendar::LAST_MINUTE as LAST;

/// A mark, or none; a minute that is announced while nothing waits; the entries that join; the mark then.
pub type Row = (Option<u64>, u64, &'static [u64], u64);

/// `~` stands for a system table's user. Entries 1, 4 and 5 are fixed.
pub const TABLE: &str = "* * * * * ~a
30 2 * * * ~b
*/30 2 * * * ~c
30 */1 * * * ~d
0-59 0-23 * * * ~e
@daily ~f
@hourly ~g
@reboot ~h
";

/// Midnight of 1972-09-27, from which the minutes of a day are counted.
const DAY: u64 = 1_440_000;

/// 02:30, and the minute after it.
const B: u64 = DAY + 150;
const AFTER_B: u64 = DAY + 151;

/// 2026-11-15 02:30.
const B_2026: u64 = 29_911_830;

/// All that are due at 02:30, and those of them that aren't fixed.
const DUE: &[u64] = &[0, 1, 2, 3, 4];
const DUE_OTHERS: &[u64] = &[0, 2, 3];

pub const ROWS: [Row; 44] = [
    // "If there is none, .. all entries are judged by m and the mark becomes m."
    (None, B, DUE, B),
    (None, AFTER_B, &[0, 4], AFTER_B),
    (None, DAY, &[0, 4, 5, 6], DAY),
    (None, 0, &[0, 4, 5, 6], 0),
    (None, LAST, &[0, 4], LAST),
    // "Or m is more than 180 above h": what was due in between is passed over.
    (Some(AFTER_B - 181), AFTER_B, &[0, 4], AFTER_B),
    (Some(B - 181), B, DUE, B),
    (Some(DAY - 181), DAY, &[0, 4, 5, 6], DAY),
    (Some(DAY - 1), DAY + 44_640, &[0, 4, 5, 6], DAY + 44_640),
    (Some(150), B_2026, DUE, B_2026),
    (Some(0), LAST, &[0, 4], LAST),
    (Some(0), 181, &[0, 4], 181),
    // "Or at least 180 below": fixed entries join again.
    (Some(B + 180), B, DUE, B),
    (Some(B + 181), B, DUE, B),
    (Some(DAY + 180), DAY, &[0, 4, 5, 6], DAY),
    (Some(180), 0, &[0, 4, 5, 6], 0),
    (Some(LAST), LAST - 180, &[0, 4], LAST - 180),
    // "A clock falling by years, as to 1970, is the first case."
    (Some(B_2026), 150, DUE, 150),
    (Some(LAST), 0, &[0, 4, 5, 6], 0),
    // "If m is 1 to 180 above, a fixed entry joins if it matches any minute from h+1 to m, once; others are judged by m;
    // the mark becomes m."
    (Some(B - 1), B, DUE, B),
    (Some(B - 1), AFTER_B, &[0, 1, 4], AFTER_B),
    (Some(B - 180), B, &[0, 1, 2, 3, 4, 5], B),
    (Some(AFTER_B - 180), AFTER_B, &[0, 1, 4, 5], AFTER_B),
    (Some(B - 1), B + 179, &[0, 1, 4], B + 179),
    (Some(DAY - 1), DAY, &[0, 4, 5, 6], DAY),
    (Some(DAY - 1), DAY + 1, &[0, 4, 5], DAY + 1),
    (Some(DAY - 1), DAY + 60, &[0, 4, 5, 6], DAY + 60),
    (Some(DAY - 1), DAY + 179, &[0, 1, 4, 5], DAY + 179),
    (Some(0), 1, &[0, 4], 1),
    (Some(0), 180, &[0, 1, 4, 6], 180),
    (Some(LAST - 180), LAST, &[0, 4], LAST),
    // The mark's own minute isn't one of them.
    (Some(B), AFTER_B, &[0, 4], AFTER_B),
    (Some(B), B + 180, &[0, 3, 4], B + 180),
    (Some(DAY), DAY + 149, &[0, 4], DAY + 149),
    // "Otherwise fixed entries don't join, others are judged by m, the mark stays."
    (Some(B), B, DUE_OTHERS, B),
    (Some(AFTER_B), B, DUE_OTHERS, AFTER_B),
    (Some(B + 60), B, DUE_OTHERS, B + 60),
    (Some(B + 179), B, DUE_OTHERS, B + 179),
    (Some(DAY), DAY, &[0, 6], DAY),
    (Some(DAY + 179), DAY, &[0, 6], DAY + 179),
    (Some(0), 0, &[0, 6], 0),
    (Some(179), 0, &[0, 6], 179),
    (Some(LAST), LAST, &[0], LAST),
    (Some(LAST), LAST - 179, &[0, 6], LAST),
];

/// The same by local clocks: in UTC its entries are due at 21:30, at 12:00 and at 09:59.
pub const LOCAL: &str =
    "CRON_TZ=+02:30\n0 0 * * * ~a\nCRON_TZ=-12:00\n0 0 * * * ~b\nCRON_TZ=+14:00\n59 23 * * * ~c\n";

pub const LOCAL_ROWS: [Row; 17] = [
    (None, DAY + 1_290, &[0], DAY + 1_290),
    (Some(DAY + 1_289), DAY + 1_291, &[0], DAY + 1_291),
    (Some(DAY + 1_200), DAY + 1_380, &[0], DAY + 1_380),
    (Some(DAY + 1_200), DAY + 1_381, &[], DAY + 1_381),
    (Some(DAY + 1_290), DAY + 1_291, &[], DAY + 1_291),
    (Some(DAY + 1_290), DAY + 1_290, &[], DAY + 1_290),
    (Some(DAY + 1_470), DAY + 1_290, &[0], DAY + 1_290),
    (Some(DAY + 1_469), DAY + 1_290, &[], DAY + 1_469),
    (Some(DAY + 598), DAY + 720, &[1, 2], DAY + 720),
    (Some(DAY + 599), DAY + 720, &[1], DAY + 720),
    // In the west 1970 begins at 12:00; before that the mark moves all the same.
    (None, 719, &[], 719),
    (Some(600), 719, &[], 719),
    (Some(600), 780, &[1], 780),
    (Some(0), 1, &[], 1),
    // In the east 9999 ends at 09:59.
    (Some(LAST - 841), LAST - 840, &[2], LAST - 840),
    (Some(LAST - 900), LAST - 720, &[2], LAST - 720),
    (Some(LAST - 840), LAST - 839, &[], LAST - 839),
];

/// Announcements one after the other, on a line with no mark at first and emptied before each: the minute, who joins, the
/// mark then. Entries 1 and 4 of the table above are fixed and due at 02:30, entry 5 at midnight.
pub const RUN: [(u64, &[u64], u64); 16] = [
    (DAY + 89, &[0, 4], DAY + 89),
    // Two hours forward, and two hours back.
    (DAY + 210, &[0, 1, 3, 4], DAY + 210),
    (DAY + 211, &[0, 4], DAY + 211),
    (DAY + 92, &[0], DAY + 211),
    (B, DUE_OTHERS, DAY + 211),
    (DAY + 211, &[0], DAY + 211),
    (DAY + 212, &[0, 4], DAY + 212),
    // Further and further back, a step below 180 each: it is the mark that counts.
    (DAY + 112, &[0], DAY + 212),
    (DAY + 33, &[0], DAY + 212),
    (DAY + 32, &[0, 4], DAY + 32),
    (B, DUE, B),
    // To 1970, and to 2026.
    (0, &[0, 4, 5, 6], 0),
    (150, DUE, 150),
    (B_2026 - 1, &[0, 4], B_2026 - 1),
    (B_2026, DUE, B_2026),
    (B_2026 + 1_440, DUE, B_2026 + 1_440),
];
