//! Benchmarks of the library. Without an argument all of them run, with a name that one alone.

mod calendar;
mod firings;
mod glibc;
mod measure;
mod normal;
mod plain;
mod queue;
mod records;
mod schedule;
mod small;
mod table;

use std::env;
use std::process::ExitCode;

const BENCHMARKS: [(&str, fn()); 8] = [
    ("calendar", calendar::run),
    ("schedule", schedule::run),
    ("small", small::run),
    ("table", table::run),
    ("normal", normal::run),
    ("records", records::run),
    ("queue", queue::run),
    ("firings", firings::run),
];

fn main() -> ExitCode {
    let wanted: Vec<String> = env::args().skip(1).collect();
    let chosen = |name: &str| wanted.is_empty() || wanted == [name];
    let mut ran = false;
    for (name, run) in BENCHMARKS {
        if chosen(name) {
            run();
            ran = true;
        }
    }
    if ran {
        return ExitCode::SUCCESS;
    }
    eprintln!("usage: bench [NAME], where NAME is one of:");
    for (name, _) in BENCHMARKS {
        eprintln!("  {name}");
    }
    ExitCode::from(2)
}
