//! A line that goes on with a changed table: rows that were worked out by hand, refusals and rooms, and random edits against the
//! reference program. Every byte of every room is compared.

mod fair;
mod known;
mod random;
mod rooms;

use differential::queue::{Case, Compared};
use guard::filled;
use reference::queue::Queue;

/// A line on which these wait, with a mark or none, in a room of so many bytes.
fn line(waiting: &[u64], mark: Option<u64>, length: usize) -> Compared {
    let queue = Queue {
        waiting: waiting.to_vec(),
        mark,
    };
    let mut room = filled(length);
    queue.lay(&mut room);
    Compared { room, queue }
}

/// As much room as is always enough for both.
fn enough(old: &Case, new: &Case) -> usize {
    old.enough().max(new.enough())
}
