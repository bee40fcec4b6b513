//! Bytes written to the front of a lent buffer, as the library writes them and as they should be.

use eremothyn::Answer;
use guard::{filled, Guarded};
use reference::table::normal::laid;

/// Calls with a buffer of a given length, which must then hold what is expected at its front, and behind it what it held; all
/// that it held, if a refusal is expected or the buffer is too short.
pub fn written(
    what: impl Fn() -> String,
    expected: &Result<Vec<u8>, u64>,
    length: usize,
    call: impl FnOnce(&mut [u8]) -> Answer,
) -> Answer {
    let mut library = filled(length);
    let answer = Guarded::lend(&mut library, call);
    let mut second = filled(length);
    let laid = match expected {
        Ok(bytes) => laid(bytes, &mut second),
        Err(refusal) => Err(*refusal),
    };
    assert!(
        answer == laid && library == second,
        "into {length} bytes, {}: library {answer:?} \"{}\", reference program {laid:?} \"{}\"",
        what(),
        library.escape_ascii(),
        second.escape_ascii()
    );
    answer
}

/// Lengths of buffers that are just long enough, longer, and too short.
pub fn lengths(expected: &Result<Vec<u8>, u64>) -> [usize; 6] {
    let needed = expected.as_ref().map_or(3, Vec::len);
    let short = needed.saturating_sub(1);
    [needed, needed + 1, needed + 100, short, needed / 2, 0]
}
