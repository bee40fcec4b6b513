//! Random numbers by SplitMix64 (Steele, Lea and Flood, 2014): a seed gives the same numbers everywhere.

use std::env;
use std::time::{SystemTime, UNIX_EPOCH};

pub struct Random {
    state: u64,
}

impl Random {
    pub fn new(seed: u64) -> Random {
        Random { state: seed }
    }

    /// Seeded by EREMOTHYN_SEED, or else by the time. The seed is printed, and a failed test shows what it printed.
    pub fn seeded() -> Random {
        let seed = match env::var("EREMOTHYN_SEED") {
            Ok(text) => text
                .parse()
                .unwrap_or_else(|_| panic!("EREMOTHYN_SEED is {text:?}, not a 64-bit number")),
            Err(_) => SystemTime::now()
                .duration_since(UNIX_EPOCH)
                .map_or(0, |since| since.as_nanos() as u64),
        };
        println!("again with the same numbers: EREMOTHYN_SEED={seed}");
        Random::new(seed)
    }

    /// Any 64-bit number.
    pub fn number(&mut self) -> u64 {
        self.state = self.state.wrapping_add(0x9e37_79b9_7f4a_7c15);
        let mut mixed = self.state;
        mixed = (mixed ^ (mixed >> 30)).wrapping_mul(0xbf58_476d_1ce4_e5b9);
        mixed = (mixed ^ (mixed >> 27)).wrapping_mul(0x94d0_49bb_1331_11eb);
        mixed ^ (mixed >> 31)
    }

    /// From 0 to `bound - 1`. Small bounds only: the lower numbers' advantage is below `bound` in 2^64.
    pub fn below(&mut self, bound: u64) -> u64 {
        self.number() % bound
    }

    /// One of a table's rows.
    pub fn pick<T: Copy>(&mut self, rows: &[T]) -> T {
        rows[self.below(rows.len() as u64) as usize]
    }
}
