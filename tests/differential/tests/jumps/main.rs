//! Ticket 2026-10: the line's mark, against the reference program and against what follows from the ticket's words.

mod carried;
mod fair;
mod known;
mod marks;
mod runs;

use differential::queue::{Case, Compared};

/// Requests until nothing waits; who was named.
fn emptied(line: &mut Compared, case: &Case) -> Vec<u64> {
    let room = case.enough();
    let mut named = Vec::new();
    while let Some(entry) = line.pop(case, room).expect("a line") {
        named.push(entry);
    }
    named
}

/// A line of a table with a mark, or none, on which nothing waits.
fn marked(case: &Case, mark: Option<u64>) -> Compared {
    let mut line = Compared::fresh(case, case.enough());
    if let Some(minute) = mark {
        assert!(line.tick(case, case.enough(), minute).is_ok());
    }
    let _ = emptied(&mut line, case);
    assert_eq!(line.queue.mark, mark);
    line
}
