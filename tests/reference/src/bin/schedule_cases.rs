//! Writes the cases of the program that tests schedules: `schedule_cases DIR` puts the files `stdin` and `stdout` there,
//! the same at every run.
//!
//! `stdin` has 32 bytes for each case, little-endian: minutes in 8, hours and days in 4 each, months in 2, weekdays in 1,
//! stars in 1 (bit 0 days, bit 1 weekdays), 4 that are zero, and the start in 8. `stdout` has a line for each: 1 or
//! 0, whether the start matches, a space, and the next firing after it as C gets it.

use reference::answer::to_c;
use reference::random::Random;
use reference::schedule::samples::{self, DAY_SETS, STARS};
use reference::schedule::Schedule;
use std::path::Path;
use std::process::ExitCode;
use std::{env, fs, io};

const CASES: usize = 4_096;

/// Schedules with the same days.
const DRAWS: usize = 6;

type Case = (Schedule, u64);

fn main() -> ExitCode {
    let arguments: Vec<String> = env::args().skip(1).collect();
    let [dir] = &arguments[..] else {
        eprintln!("usage: schedule_cases DIR");
        return ExitCode::from(2);
    };
    match write(Path::new(dir), &cases()) {
        Ok(()) => ExitCode::SUCCESS,
        Err(error) => {
            eprintln!("{dir}: {error}");
            ExitCode::FAILURE
        }
    }
}

/// All days of the table under every rule, and then any schedules.
fn cases() -> Vec<Case> {
    let mut random = Random::new(3);
    let mut cases = Vec::new();
    for day_sets in DAY_SETS {
        for stars in STARS {
            for _ in 0..DRAWS {
                let schedule = samples::with_times(&mut random, day_sets, stars);
                add(&mut cases, schedule, samples::start(&mut random));
            }
        }
    }
    while cases.len() < CASES {
        let schedule = samples::schedule(&mut random);
        add(&mut cases, schedule, samples::start(&mut random));
    }
    cases.truncate(CASES);
    cases
}

/// A start, and the firing found from there with the minute before it.
fn add(cases: &mut Vec<Case>, schedule: Schedule, start: u64) {
    cases.push((schedule, start));
    if let Ok(firing) = schedule.next_after(start) {
        if firing - 1 > start {
            cases.push((schedule, firing - 1));
        }
        cases.push((schedule, firing));
    }
}

/// What the files `stdin` and `stdout` hold.
fn texts(cases: &[Case]) -> (Vec<u8>, String) {
    (
        cases.iter().flat_map(record).collect(),
        cases.iter().map(line).collect(),
    )
}

fn write(dir: &Path, cases: &[Case]) -> io::Result<()> {
    let (records, lines) = texts(cases);
    fs::create_dir_all(dir)?;
    fs::write(dir.join("stdin"), records)?;
    fs::write(dir.join("stdout"), lines)
}

fn record((schedule, start): &Case) -> [u8; 32] {
    let [.., stars] = schedule.numbers();
    let parts: [&[u8]; 8] = [
        &schedule.minutes.to_le_bytes(),
        &schedule.hours.to_le_bytes(),
        &schedule.days.to_le_bytes(),
        &schedule.months.to_le_bytes(),
        &[schedule.weekdays],
        &[stars as u8],
        &[0; 4],
        &start.to_le_bytes(),
    ];
    let bytes = parts.concat();
    bytes.try_into().expect("32 bytes")
}

fn line((schedule, start): &Case) -> String {
    let matches = u64::from(schedule.matches(*start));
    let next = to_c(schedule.next_after(*start));
    format!("{matches} {next}\n")
}

#[cfg(test)]
mod tests {
    use super::*;

    #[test]
    fn the_program_s_files_are_these_cases() {
        let dir = Path::new(env!("CARGO_MANIFEST_DIR")).join("../../crates/schedule_cases");
        let (records, lines) = texts(&cases());
        let stdin = fs::read(dir.join("stdin")).expect("stdin is there");
        assert!(stdin == records, "write the cases anew");
        let stdout = fs::read_to_string(dir.join("stdout")).expect("stdout is there");
        assert!(stdout == lines, "write the cases anew");
    }
}
