//! Every call with tables of every sort, under any numbers for their kind and their dialect.

use crate::bytes;
use crate::every::{every_call, every_call_under_all};
use differential::samples::{any_rules, numbers};
use reference::random::Random;

#[test]
fn every_call_with_small_tables() {
    let mut random = Random::seeded();
    for _ in 0..80_000 {
        let rules = any_rules(&mut random);
        let table = bytes::table(&mut random, rules);
        // Now and then it is read as one of others.
        let read_as = match random.below(6) {
            0 => any_rules(&mut random),
            _ => rules,
        };
        let number = numbers(&mut random, read_as);
        every_call(&mut random, &table, number);
    }
}

/// Any bytes, of every length about pages and the longest table.
#[test]
fn every_call_with_any_bytes_of_all_lengths() {
    let mut random = Random::seeded();
    let pages = (1..=5).flat_map(|page| [4_096 * page - 1, 4_096 * page, 4_096 * page + 1]);
    for length in (0..300).chain(pages) {
        for _ in 0..10 {
            let table = bytes::any(&mut random, length);
            every_call_under_all(&mut random, &table);
        }
    }
}

/// A good table cut short at every place, so that it ends at the guard page in the midst of everything.
#[test]
fn every_call_with_tables_cut_at_every_place() {
    let mut random = Random::seeded();
    let user: &[u8] =
        b"# a\n \tA = 'b' \n\"c\"=d\n1-2/3,4 */5 6,7 fEb 0-7\ta\\%%b\\\n@reboot \\\n@weekly %";
    let system: &[u8] =
        b"A = 'b' \n1-2/3,4 */5 6,7 fEb 0-7\tu:g/l\ta\\%%b\\\n@reboot a/.b- \\\n@weekly _:0 %";
    let offsets: &[u8] = b"CRON_TZ = '-03:30'\n@daily u a\nCRON_TZ=+14:00";
    for table in [user, system, offsets] {
        for length in 0..=table.len() {
            for start in 0..=length {
                every_call_under_all(&mut random, &table[start..length]);
            }
        }
    }
}
