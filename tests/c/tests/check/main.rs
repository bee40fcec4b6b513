//! `eremothyn check`: what it says of good and bad tables, of those that may not be meant so, and of files that it can't read.

mod errors;
mod fields;
mod files;
mod hints;
mod options;
mod random;
mod real;
mod shown;
mod terminal;
mod warnings;

use c::{all, Subcommand};

fn check_in(folder: &str) -> Subcommand {
    Subcommand::new("check", folder)
}

/// What is printed of a table in a file named `t`, and the exit status; nothing is complained of.
fn says(check: &Subcommand, options: &[&str], table: impl AsRef<[u8]>) -> (String, Option<i32>) {
    check.write("t", table);
    let (text, complaint, status) = all(&check.run(&[options, &["t"]].concat()));
    assert_eq!(complaint, "");
    (text, status)
}

/// The diagnostics of a table, a line each.
fn short(check: &Subcommand, options: &[&str], table: impl AsRef<[u8]>) -> Vec<String> {
    let (text, _) = says(check, &[options, &["--short", "-q"]].concat(), table);
    text.lines().map(str::to_string).collect()
}
