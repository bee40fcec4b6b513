//! Records damaged as a radio link damages them, and any bytes at all.

use differential::records::Compared;
use differential::table;
use reference::random::Random;
use reference::table::records::samples::{apart, damaged, good, record, with_later};

/// Compares all answers; whether the records are still taken.
fn is_taken(random: &mut Random, records: &[u8]) -> bool {
    let compared = Compared::of(records);
    let taken = compared.decompile_whole().is_ok();
    if random.below(16) == 0 {
        compared.decompile_into_all();
        if let Ok(text) = &compared.text {
            compiles_back(records, text);
        }
    }
    taken
}

/// What is taken is what the writer makes of its text, but for records that are skipped.
fn compiles_back(records: &[u8], text: &[u8]) {
    let is_known = |one: &&[u8]| one[3] < 0x80;
    let known: Vec<&[u8]> = apart(records).into_iter().filter(is_known).collect();
    assert_eq!(table::Compared::of(text).there_and_back(), known.concat());
}

/// A million damaged records, one to three in a row.
#[test]
fn a_million_damaged_records() {
    let mut random = Random::seeded();
    let (mut count, mut taken, mut refused) = (0, 0, 0);
    while count < 1_000_000 {
        let lines = 1 + random.below(3);
        let good = good(&mut random, lines);
        for _ in 0..8 {
            let records = damaged(&mut random, good.clone());
            count += apart(&records).len();
            match is_taken(&mut random, &records) {
                true => taken += 1,
                false => refused += 1,
            }
        }
    }
    // Both were seen.
    assert!(taken > 10_000 && refused > 10_000, "{taken}, {refused}");
}

/// Longer ones, with later kinds among them.
#[test]
fn damaged_tables() {
    let mut random = Random::seeded();
    for _ in 0..2_000 {
        let lines = random.below(40);
        let good = good(&mut random, lines);
        let mixed = with_later(&mut random, &good);
        for _ in 0..4 {
            let records = damaged(&mut random, mixed.clone());
            let _ = is_taken(&mut random, &records);
        }
    }
}

/// Every bit of some records flipped, and each byte set to each number.
#[test]
fn every_bit_and_every_byte() {
    let table = b"A=b\n@reboot c\nCRON_TZ=+05:30\n*/7 1 * 2 0 d\n";
    let records = reference::table::records::compiled(table).expect("a good table");
    for at in 0..records.len() {
        for byte in 0..=255 {
            let mut changed = records.clone();
            changed[at] = byte;
            let _ = Compared::of(&changed).decompile_whole();
        }
    }
}

/// Cut at every place, at both ends, so that they end at the guard page in the midst of everything.
#[test]
fn cut_at_every_place() {
    let mut random = Random::seeded();
    for _ in 0..20 {
        let good = good(&mut random, 4);
        let records = with_later(&mut random, &good);
        let most = records.len().min(300);
        for end in 0..=most {
            for start in 0..=end {
                let _ = Compared::of(&records[start..end]).decompile_whole();
            }
        }
    }
}

/// The front of one and the end of another.
#[test]
fn spliced() {
    let mut random = Random::seeded();
    for _ in 0..20_000 {
        let [one, other] = [(); 2].map(|_| good(&mut random, 3));
        let until = random.below(one.len() as u64 + 1) as usize;
        let from = random.below(other.len() as u64 + 1) as usize;
        let records = [&one[..until], &other[from..]].concat();
        let _ = is_taken(&mut random, &records);
    }
}

/// Any bytes, and any bodies of the four kinds.
#[test]
fn any_bytes() {
    let mut random = Random::seeded();
    for _ in 0..100_000 {
        let length = random.below(60);
        let bytes: Vec<u8> = (0..length).map(|_| random.number() as u8).collect();
        let records = match random.below(5) as u16 {
            0 => bytes,
            kind => record(kind, &bytes),
        };
        let _ = is_taken(&mut random, &records);
    }
}
