//! `eremothyn agenda`: what will fire in a span, for a person.

mod compared;
mod edges;
mod pages;
mod parsed;
mod wanted;
mod worked;

use c::{all, Subcommand};

fn agenda_in(folder: &str) -> Subcommand {
    Subcommand::new("agenda", folder)
}

/// The agenda of a table that is taken. It is UTF-8, whatever the table is.
fn agenda_of(agenda: &Subcommand, arguments: &[&str], table: &[u8]) -> String {
    let output = agenda.run_with(arguments, table);
    let (_, complaint, status) = all(&output);
    assert_eq!((complaint.as_str(), status), ("", Some(0)), "{arguments:?}");
    String::from_utf8(output.stdout).expect("UTF-8")
}
