//! Spans of minutes for lists of firings: a is excluded, b included.

use reference::calendar::LAST_MINUTE;
use reference::random::Random;
use reference::schedule::samples::start;

/// A short span, empty or reversed ones among them, at the calendar's ends too; now and then off it.
pub fn near(random: &mut Random) -> [u64; 2] {
    let a = start(random);
    let far = random.pick(&[1, 2, 60, 1_440, 10_000]);
    let far = random.below(far + 1);
    match random.below(8) {
        0 => [a, a.saturating_sub(far)],
        1 => [LAST_MINUTE - far, LAST_MINUTE],
        2 => [0, far],
        _ => [a, a.saturating_add(far)],
    }
}

/// Any span: years and centuries, too.
pub fn any(random: &mut Random) -> [u64; 2] {
    match random.below(3) {
        0 => near(random),
        _ => [start(random), start(random)],
    }
}

/// Spans about the ends of the calendar, and about where they leave it.
pub fn ends() -> Vec<[u64; 2]> {
    let minutes = [
        0,
        1,
        2,
        719,
        720,
        721,
        840,
        841,
        1_439,
        1_440,
        LAST_MINUTE - 841,
        LAST_MINUTE - 840,
        LAST_MINUTE - 721,
        LAST_MINUTE - 720,
        LAST_MINUTE - 1,
        LAST_MINUTE,
        LAST_MINUTE + 1,
        1 << 32,
        (1 << 32) + 1,
        u64::MAX,
    ];
    let spans = minutes.iter().flat_map(|&a| minutes.map(|b| [a, b]));
    spans.collect()
}
