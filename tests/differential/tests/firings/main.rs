//! Ticket 2026-12: the firings of an entry and of a table after minute a and up to minute b, in lent runs, against the second
//! program and against what follows from the ticket's words. Every number of a run is compared.

mod known;
mod random;
mod refused;
mod runs;
mod spans;

use differential::samples::of_kind;
use differential::table::Compared;
use eremothyn::Filled;
use reference::table::Kind;

/// All firings fit.
fn all(count: usize) -> Result<Filled, u64> {
    Ok(Filled {
        count: count as u64,
        more: false,
    })
}

/// So many fit, and more remain.
fn more(count: usize) -> Result<Filled, u64> {
    Ok(Filled {
        count: count as u64,
        more: true,
    })
}

/// Runs a test with a table of either kind: `~` is a system table's user.
fn in_both_kinds(table: &str, test: impl Fn(&Compared)) {
    for kind in Kind::BOTH {
        let table = of_kind(table, kind);
        test(&Compared::under(table.as_bytes(), kind));
    }
}
