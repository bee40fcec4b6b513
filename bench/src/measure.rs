//! Timing, and the table that shows it.

use std::hint::black_box;
use std::time::Instant;

const ROUNDS: usize = 15;

/// Nanoseconds that `work` takes for one input, in the quickest of the rounds over all inputs. What disturbs a round
/// only ever makes it slower, so the least is the nearest to the truth.
pub fn nanoseconds<I: Copy, O>(inputs: &[I], work: impl Fn(I) -> O) -> f64 {
    in_turn(&[&|| round(inputs, &work)])[0]
}

/// The least of each one's rounds, which are run in turn: what disturbs the machine for a while disturbs them all.
pub fn in_turn(works: &[&dyn Fn() -> f64]) -> Vec<f64> {
    let mut least = vec![f64::INFINITY; works.len()];
    for _ in 0..ROUNDS {
        for (least, round) in least.iter_mut().zip(works) {
            *least = least.min(round());
        }
    }
    least
}

/// One round: nanoseconds for each input.
pub fn round<I: Copy, O>(inputs: &[I], work: impl Fn(I) -> O) -> f64 {
    let start = Instant::now();
    for &input in inputs {
        black_box(work(black_box(input)));
    }
    start.elapsed().as_nanos() as f64 / inputs.len() as f64
}

/// The table's head. The library is the first column; each of the others has its ratio to it.
pub fn print_head(title: &str, others: &[&str]) {
    println!("{title}, ns each, least of {ROUNDS} rounds; (times the library's)");
    print!("{:<32}{:>10}", "", "library");
    for other in others {
        print!("{other:>20}");
    }
    println!();
}

pub fn print_row(what: &str, library: f64, others: &[f64]) {
    print!("{what:<32}{library:>10.1}");
    for other in others {
        print!("{other:>11.1} {:>8}", format!("({:.3})", other / library));
    }
    println!();
}

/// The head of a table of two: the library, another, and how many times as long the library takes.
pub fn print_pair_head(title: &str, other: &str) {
    println!("{title}");
    println!("{:<32}{:>10}{other:>20}{:>10}", "", "library", "times");
}

pub fn print_pair(what: &str, [library, other]: [f64; 2], times: f64) {
    println!("{what:<32}{library:>10.2}{other:>20.2}{times:>10.3}");
}
