//! Bodies of every sort: those that a line could mean, and those that none could.

use differential::records::Compared;
use eremothyn::Answer;
use reference::random::Random;
use reference::table::records::samples::record;
use reference::table::samples::LIMITS;

const NO_LINE: Answer = Err(24);

/// The record's answer, compared.
fn answer(kind: u16, body: &[u8]) -> Answer {
    Compared::of(&record(kind, body)).decompile_whole()
}

/// Where each field's set stands in a body, and how many bytes it has.
const FIELDS: [(usize, usize); 5] = [(0, 8), (8, 4), (12, 4), (16, 2), (18, 1)];

/// A body with one field's set and flag given, and `1` in the others.
fn with_set(which: usize, set: u64, star: bool) -> Vec<u8> {
    let mut body = vec![0; 19];
    for (at, _) in FIELDS {
        body[at] = 2;
    }
    let (at, bytes) = FIELDS[which];
    body[at..at + bytes].copy_from_slice(&set.to_le_bytes()[..bytes]);
    body.extend([u8::from(star) << which, b'a']);
    body
}

/// Every bit of every set alone and beside a good one, with the star's flag and without.
#[test]
fn every_bit_of_every_set() {
    for (which, (first, last)) in LIMITS.into_iter().enumerate() {
        // Sunday is bit 0 alone.
        let last = if which == 4 { 6 } else { last };
        let bits = 8 * FIELDS[which].1 as u64;
        for bit in 0..bits {
            let is_good = (first..=last).contains(&bit);
            for set in [1 << bit, 1 << bit | 4] {
                let found = answer(1, &with_set(which, set, false));
                assert_eq!(found.is_ok(), is_good, "{which} {set:x}");
                let starred = answer(1, &with_set(which, set, true));
                assert!(set == 1 << first || starred == NO_LINE, "{which} {set:x}");
            }
        }
        assert_eq!(answer(1, &with_set(which, 0, false)), NO_LINE);
        assert_eq!(answer(1, &with_set(which, 0, true)), NO_LINE);
        assert!(answer(1, &with_set(which, 1 << first, true)).is_ok());
    }
}

/// A star's values are the field's first and each step-th after it. The sets that differ from them by one bit are compared, too.
#[test]
fn stars_of_every_step() {
    for (which, (first, last)) in LIMITS.into_iter().enumerate() {
        let bits = 8 * FIELDS[which].1 as u64;
        for step in 1..=last + 1 {
            let values = (first..=last).step_by(step as usize);
            let set = values.fold(0_u64, |set, value| set | 1 << value);
            let set = if which == 4 {
                set & 0x7f | set >> 7
            } else {
                set
            };
            assert!(answer(1, &with_set(which, set, true)).is_ok());
            for bit in 0..bits {
                let _ = answer(1, &with_set(which, set ^ 1 << bit, true));
                let _ = answer(1, &with_set(which, set ^ 1 << bit, false));
            }
        }
    }
}

/// Every set of months with a star, and every set of weekdays with one and without.
#[test]
fn every_small_set() {
    let mut stars = 0;
    for set in 0..1 << 16 {
        let months = answer(1, &with_set(3, set, true));
        stars += u32::from(months.is_ok());
        if set < 1 << 8 {
            let _ = answer(1, &with_set(4, set, true));
            let _ = answer(1, &with_set(4, set, false));
        }
    }
    // Every step up to 12 gives another set.
    assert_eq!(stars, 12);
}

/// Every byte of flags over full sets: bits 0 to 4 may be set, and no other.
#[test]
fn every_byte_of_flags() {
    let mut body = Vec::new();
    body.extend(0x0fff_ffff_ffff_ffff_u64.to_le_bytes());
    body.extend(0x00ff_ffff_u32.to_le_bytes());
    body.extend(0xffff_fffe_u32.to_le_bytes());
    body.extend(0x1ffe_u16.to_le_bytes());
    body.extend([0x7f, 0, b'a']);
    for flags in 0..=255 {
        body[19] = flags;
        assert_eq!(answer(1, &body).is_ok(), flags < 32, "{flags}");
    }
}

/// Any sets and flags at all.
#[test]
fn any_sets() {
    let mut random = Random::seeded();
    let mut good = 0;
    for _ in 0..100_000 {
        let mut body: Vec<u8> = with_set(0, 0x0fff_ffff_ffff_ffff, false);
        for (which, (at, bytes)) in FIELDS.into_iter().enumerate() {
            let mask = match random.below(40) {
                0 => u64::MAX,
                _ => [(1 << 60) - 1, (1 << 24) - 1, !1, 0x1ffe, 0x7f][which],
            };
            let set = random.number() & mask;
            body[at..at + bytes].copy_from_slice(&set.to_le_bytes()[..bytes]);
        }
        good += u32::from(answer(1, &body).is_ok());
    }
    assert!((10_000..99_000).contains(&good), "{good}");
}

/// Every byte at each place of a command, of a name and of a value.
#[test]
fn every_byte_of_every_text() {
    let timed = &with_set(0, 1, false)[..20];
    for byte in 0..=255 {
        let is_in_line = !matches!(byte, 0..=8 | 10..=31 | 127);
        let starts = is_in_line && byte != b' ' && byte != b'\t';
        for (text, is_command) in [
            (&[byte][..], starts),
            (&[byte, b'a'], starts),
            (&[b'a', byte], is_in_line),
            (&[b'a', byte, b'b'], is_in_line),
        ] {
            assert_eq!(answer(2, text).is_ok(), is_command, "{text:?}");
            let found = answer(1, &[timed, text].concat());
            assert_eq!(found.is_ok(), is_command, "{text:?}");
            let name = [&[text.len() as u8, 0], text, b"v"].concat();
            assert_eq!(answer(3, &name).is_ok(), is_in_line, "{text:?}");
            let value = [&[1, 0, b'n'], text].concat();
            assert_eq!(answer(3, &value).is_ok(), is_in_line, "{text:?}");
        }
    }
}

/// Every name and every value of up to five of the bytes that decide on quotes.
#[test]
fn short_settings() {
    let bytes = b"a1=\"' ";
    let mut texts: Vec<Vec<u8>> = vec![Vec::new()];
    let mut refused = 0;
    for _ in 0..5 {
        let longer = |text: &Vec<u8>| bytes.map(|byte| [&text[..], &[byte]].concat());
        texts = texts.iter().flat_map(longer).collect();
        for text in &texts {
            let name = [&[text.len() as u8, 0], &text[..]].concat();
            let value = [&[1, 0, b'n'], &text[..]].concat();
            for body in [name, value] {
                refused += u32::from(answer(3, &body) == NO_LINE);
            }
        }
    }
    assert!(refused > 1_000, "{refused}");
}

/// Names as long as their body, a byte shorter and longer, and longer by 256 and by all that two bytes can say.
#[test]
fn lengths_of_names() {
    for length in 0..600_usize {
        for more in 0..3 {
            let text = vec![b'n'; length + more];
            for said in [
                length,
                length + 1,
                length + 256,
                length + 512,
                65_535 - length,
            ] {
                let body = [&(said as u16).to_le_bytes()[..], &text].concat();
                let is_good = (1..=text.len()).contains(&said);
                assert_eq!(answer(3, &body).is_ok(), is_good, "{length} {more} {said}");
            }
        }
    }
}

/// Bodies of every length from none, of each kind: cut from good ones, and zeros.
#[test]
fn bodies_of_every_length() {
    let timed = [&with_set(0, 1, false)[..], b" b c d e"].concat();
    for length in 0..=timed.len() {
        for kind in 1..=4 {
            let _ = answer(kind, &timed[..length]);
            let _ = answer(kind, &timed[timed.len() - length..]);
            let _ = answer(kind, &vec![0; length]);
            let _ = answer(kind, &vec![b'a'; length]);
        }
        assert_eq!(answer(1, &timed[..length]).is_ok(), length > 20);
    }
}
