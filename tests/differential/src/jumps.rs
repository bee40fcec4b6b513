//! The minutes that a clock shows which jumps.

use crate::queue::Compared;
use reference::calendar::LAST_MINUTE;
use reference::random::Random;
use reference::schedule::samples::start;

/// How far the clock jumps, either way: minutes about the ticket's limits, hours, days, months, years, centuries.
const JUMPS: [u64; 22] = [
    0,
    1,
    2,
    3,
    30,
    59,
    60,
    61,
    119,
    120,
    178,
    179,
    180,
    181,
    182,
    720,
    1_440,
    44_640,
    525_600,
    2_103_840,
    29_912_970,
    210_379_680,
];

/// A minute that far above or below one; the calendar's end where there is none.
pub fn jumped(random: &mut Random, from: u64) -> u64 {
    let far = random.pick(&JUMPS);
    match random.below(2) {
        0 => from.saturating_add(far).min(LAST_MINUTE),
        _ => from.saturating_sub(far),
    }
}

/// The next minute to announce: mostly one by one, or a jump from the minute before or from the mark.
pub fn minute(random: &mut Random, line: &Compared, last: u64) -> u64 {
    match random.below(8) {
        0..=2 => last.saturating_add(1).min(LAST_MINUTE),
        3 | 4 => jumped(random, last),
        5 | 6 => jumped(random, line.queue.mark.unwrap_or(last)),
        _ => start(random),
    }
}
