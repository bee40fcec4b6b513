//! Numbers of every size.

use reference::calendar::LAST_MINUTE;
use reference::random::Random;
use reference::schedule::samples;

/// A number of an entry or a line: about as many as there are, or as few in its low bits alone, or any other.
pub fn number(random: &mut Random, count: u64) -> u64 {
    let few = random.below(count + 3);
    match random.below(8) {
        0 => 0,
        1 | 2 => few,
        3 => (1 << 16) + few,
        4 => (1 << 32) + few,
        5 => u64::MAX - few,
        6 => (1 << random.below(64)) | few,
        _ => random.number() >> random.below(64),
    }
}

/// A minute, of the calendar or not.
pub fn minute(random: &mut Random) -> u64 {
    let ends = [0, LAST_MINUTE - 1, LAST_MINUTE, LAST_MINUTE + 1, u64::MAX];
    match random.below(4) {
        0 => random.pick(&ends),
        1 => number(random, LAST_MINUTE),
        _ => samples::start(random),
    }
}

/// Two such minutes; where both are on the calendar and far apart, the second is drawn near.
pub fn span(random: &mut Random) -> [u64; 2] {
    const FAR: u64 = 20_000;
    let [a, b] = [(); 2].map(|_| minute(random));
    match b <= LAST_MINUTE && a <= LAST_MINUTE {
        true => [a, b.min(a + FAR)],
        false => [a, b],
    }
}
