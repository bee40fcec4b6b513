//! Lists of firings (ticket 2026-12): the merged list of a full table of 512 entries over a winter of 151 days, beside a plain loop
//! that asks every entry at every minute, and beside the reference program; the lists of single entries, beside the same; and the lines
//! that the program prints in a second.

mod lists;
mod program;

pub fn run() {
    lists::merged();
    lists::of_entries();
    program::run();
}
