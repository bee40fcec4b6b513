//! `soak STATE HOURS [SEED [ROUND]]`: random calls, each compared with the reference program's answer, for so many hours on all
//! cores. Rounds have numbers, and a round's numbers follow from the seed and its own: one that fails can be run again alone. The
//! state is a file of a line, `SEED ROUNDS CALLS SECONDS`; a soak goes on where it stood.

mod rounds;
mod state;

use reference::random::Random;
use state::State;
use std::env;
use std::panic::{catch_unwind, AssertUnwindSafe};
use std::process::ExitCode;
use std::sync::atomic::{AtomicBool, AtomicU64, Ordering};
use std::thread;
use std::time::{Duration, Instant};

/// So many rounds are done before the state is written again.
const AT_ONCE: u64 = 64;

/// How often is told how far it is.
const PAUSE: Duration = Duration::from_secs(60);

fn numbers_of(seed: u64, round: u64) -> Random {
    let mut seeds = Random::new(seed);
    Random::new(seeds.number() ^ round.wrapping_mul(0xd134_2543_de82_ef95))
}

/// Runs a round; what went wrong has been printed where it did.
fn is_passed(seed: u64, round: u64) -> bool {
    let passed = catch_unwind(AssertUnwindSafe(|| {
        rounds::round(&mut numbers_of(seed, round))
    }));
    if passed.is_err() {
        eprintln!("soak: this round alone: make soak SEED={seed} ROUND={round}");
    }
    passed.is_ok()
}

/// Runs the next rounds on all cores; whether all of them passed.
fn are_passed(seed: u64, from: u64) -> bool {
    let next = AtomicU64::new(from);
    let good = AtomicBool::new(true);
    let work = || loop {
        let round = next.fetch_add(1, Ordering::Relaxed);
        if round >= from + AT_ONCE || !good.load(Ordering::Relaxed) {
            return;
        }
        if !is_passed(seed, round) {
            good.store(false, Ordering::Relaxed);
        }
    };
    thread::scope(|scope| {
        for _ in 0..thread::available_parallelism().map_or(1, usize::from) {
            scope.spawn(work);
        }
    });
    good.into_inner()
}

fn soak(path: &str, mut state: State, hours: f64) -> Result<(), String> {
    let start = Instant::now();
    let before = state;
    let mut told = start;
    println!("soak: {state}");
    while start.elapsed().as_secs_f64() < hours * 3600.0 {
        if !are_passed(state.seed, state.rounds) {
            return Err(format!("stopped after {state}"));
        }
        state.rounds += AT_ONCE;
        state.calls = before.calls + eremothyn::calls();
        state.seconds = before.seconds + start.elapsed().as_secs();
        state.write(path)?;
        if told.elapsed() >= PAUSE {
            println!("soak: {state}");
            told = Instant::now();
        }
    }
    println!("soak: {state}, and no difference");
    Ok(())
}

fn number<T: std::str::FromStr>(words: &[String], place: usize) -> Result<Option<T>, String> {
    let Some(word) = words.get(place).filter(|word| !word.is_empty()) else {
        return Ok(None);
    };
    word.parse()
        .map(Some)
        .map_err(|_| format!("'{word}' is no number"))
}

fn run(words: &[String]) -> Result<(), String> {
    let path = words.first().ok_or("no file for the state is named")?;
    let hours: f64 = number(words, 1)?.ok_or("for how many hours?")?;
    let seed = number(words, 2)?;
    let state = State::read(path, seed)?;
    match number(words, 3)? {
        None => soak(path, state, hours),
        Some(round) if is_passed(state.seed, round) => {
            println!("soak: round {round} of seed {} passed", state.seed);
            Ok(())
        }
        Some(round) => Err(format!("round {round} failed")),
    }
}

fn main() -> ExitCode {
    let words: Vec<String> = env::args().skip(1).collect();
    match run(&words) {
        Ok(()) => ExitCode::SUCCESS,
        Err(why) => {
            eprintln!("soak: {why}");
            ExitCode::FAILURE
        }
    }
}
