//! How far a soak is.

use std::fmt;
use std::fs;
use std::io::ErrorKind;
use std::time::{SystemTime, UNIX_EPOCH};

#[derive(Clone, Copy)]
pub struct State {
    pub seed: u64,
    pub rounds: u64,
    pub calls: u64,
    pub seconds: u64,
}

impl State {
    /// The state in a file, or a fresh one where there is no file, or one of another seed. Without a seed it is the time.
    pub fn read(path: &str, seed: Option<u64>) -> Result<State, String> {
        let time = SystemTime::now().duration_since(UNIX_EPOCH);
        let fresh = |seed: Option<u64>| State {
            seed: seed.unwrap_or(time.map_or(0, |time| time.as_secs())),
            rounds: 0,
            calls: 0,
            seconds: 0,
        };
        let text = match fs::read_to_string(path) {
            Ok(text) => text,
            Err(error) if error.kind() == ErrorKind::NotFound => return Ok(fresh(seed)),
            Err(error) => return Err(format!("{path}: {error}")),
        };
        let numbers: Option<Vec<u64>> = text
            .split_whitespace()
            .map(|word| word.parse().ok())
            .collect();
        let Some([found, rounds, calls, seconds]) = numbers.as_deref() else {
            return Err(format!("{path}: not a soak's state"));
        };
        if seed.is_some_and(|seed| seed != *found) {
            return Ok(fresh(seed));
        }
        Ok(State {
            seed: *found,
            rounds: *rounds,
            calls: *calls,
            seconds: *seconds,
        })
    }

    /// Whole, or not at all.
    pub fn write(&self, path: &str) -> Result<(), String> {
        let State {
            seed,
            rounds,
            calls,
            seconds,
        } = self;
        let beside = format!("{path}.new");
        fs::write(&beside, format!("{seed} {rounds} {calls} {seconds}\n"))
            .and_then(|()| fs::rename(&beside, path))
            .map_err(|error| format!("{path}: {error}"))
    }
}

impl fmt::Display for State {
    fn fmt(&self, to: &mut fmt::Formatter) -> fmt::Result {
        let State {
            seed,
            rounds,
            calls,
            seconds,
        } = self;
        write!(
            to,
            "seed {seed}, {rounds} rounds, {calls} calls, {} minutes",
            seconds / 60
        )
    }
}
