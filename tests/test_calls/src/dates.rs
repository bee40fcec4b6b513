//! A whole date in one call, its minute, and both by the walk year by year.

// Numbers in, a number out, nothing required: safe to call with anything.
unsafe extern "C" {
    /// The number of a minute's date; `unpacked` takes it apart.
    pub safe fn calendar_date(minute: u64) -> u64;
    pub safe fn calendar_date_by_walk(minute: u64) -> u64;
    /// The minute of a year, month, day, hour and minute, or 2^32 and the refusal's number.
    pub safe fn calendar_minute(_: u64, _: u64, _: u64, _: u64, _: u64) -> u64;
    pub safe fn calendar_minute_by_walk(_: u64, _: u64, _: u64, _: u64, _: u64) -> u64;
}

/// Year, month, day, hour, minute, weekday.
pub type Parts = [u64; 6];

/// The bits of each part within the number, the last part in the lowest bits. The refusal stands above them.
const BITS: [u32; 6] = [14, 4, 5, 5, 6, 3];

/// The number of a date.
#[inline(always)]
pub fn packed(parts: Parts) -> u64 {
    let mut number = 0;
    for (part, bits) in parts.into_iter().zip(BITS) {
        number = number << bits | part;
    }
    number
}

/// The refusal and the date of a number: loses nothing.
pub fn unpacked(number: u64) -> (u64, Parts) {
    let mut rest = number;
    let mut parts = [0; 6];
    for (part, bits) in parts.iter_mut().zip(BITS).rev() {
        *part = rest & ((1 << bits) - 1);
        rest >>= bits;
    }
    (rest, parts)
}
