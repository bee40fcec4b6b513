//! A soak goes on where it stood, by its state; a seed begins another.

use std::fs;
use std::path::{Path, PathBuf};
use std::process::Command;

fn soak(arguments: &[&str]) -> (String, bool) {
    let output = Command::new(env!("CARGO_BIN_EXE_soak"))
        .args(arguments)
        .output()
        .expect("the soak runs");
    let text = [output.stdout, output.stderr].concat();
    (
        String::from_utf8(text).expect("a text"),
        output.status.success(),
    )
}

fn state(name: &str) -> PathBuf {
    let path = Path::new(env!("CARGO_TARGET_TMPDIR")).join(name);
    let _ = fs::remove_file(&path);
    path
}

/// Seed, rounds, calls and seconds.
fn numbers(path: &Path) -> [u64; 4] {
    let text = fs::read_to_string(path).expect("a state");
    let numbers: Vec<u64> = text
        .split_whitespace()
        .map(|word| word.parse().expect(word))
        .collect();
    numbers.try_into().expect("four numbers")
}

#[test]
fn it_goes_on_where_it_stood() {
    let path = state("resumed");
    let name = path.to_str().expect("a path");
    let (text, passed) = soak(&[name, "0.0003", "7"]);
    assert!(passed && text.ends_with(", and no difference\n"), "{text}");
    let first = numbers(&path);
    assert_eq!(first[0], 7);
    assert!(first[1] >= 64 && first[2] > 1_000, "{first:?}");
    let (text, passed) = soak(&[name, "0.0003", ""]);
    let start = format!("soak: seed 7, {} rounds, {} calls, ", first[1], first[2]);
    assert!(passed && text.starts_with(&start), "{text}");
    let second = numbers(&path);
    assert_eq!(second[0], 7);
    assert!(second[1] > first[1] && second[2] > first[2], "{second:?}");
    let (text, passed) = soak(&[name, "0.0003", "8"]);
    assert!(
        passed && text.starts_with("soak: seed 8, 0 rounds, 0 calls, "),
        "{text}"
    );
}

/// A round is the same whenever it is run.
#[test]
fn a_round_is_run_alone() {
    let path = state("alone");
    let name = path.to_str().expect("a path");
    for round in ["0", "63", "18446744073709551615"] {
        let line = format!("soak: round {round} of seed 7 passed\n");
        assert_eq!(soak(&[name, "0", "7", round]), (line, true));
    }
    assert!(!path.exists());
}

#[test]
fn wrong_arguments_and_states_are_said() {
    let path = state("damaged");
    let name = path.to_str().expect("a path");
    let rows: [(&[&str], &str); 5] = [
        (&[], "soak: no file for the state is named\n"),
        (&[name], "soak: for how many hours?\n"),
        (&[name, "day"], "soak: 'day' is no number\n"),
        (&[name, "1", "-1"], "soak: '-1' is no number\n"),
        (&[name, "1", "1", "x"], "soak: 'x' is no number\n"),
    ];
    for (arguments, text) in rows {
        assert_eq!(soak(arguments), (text.to_string(), false));
    }
    fs::write(&path, "7 64 1000\n").expect("a state is written");
    let line = format!("soak: {name}: not a soak's state\n");
    assert_eq!(soak(&[name, "0"]), (line, false));
}
