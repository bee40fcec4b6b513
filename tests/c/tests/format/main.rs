//! `eremothyn format`: the normal text, what differs from it, and files that are rewritten.

mod diffs;
mod texts;
mod writing;

use c::{all, is, Subcommand};

fn format_in(folder: &str) -> Subcommand {
    Subcommand::new("format", folder)
}
