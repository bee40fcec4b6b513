//! Tables that are edited: lines exchanged, removed, doubled, changed and put in.

use crate::samples::busy_table;
use reference::random::Random;
use reference::table::{read, samples, Rules};

pub type Lines = Vec<Vec<u8>>;

/// The lines of a table, each with its newline.
pub fn lines(table: &[u8]) -> Lines {
    let lines = table.split_inclusive(|&byte| byte == b'\n');
    lines.map(<[u8]>::to_vec).collect()
}

/// One edit. What it makes may be a bad table.
fn edit(random: &mut Random, rules: Rules, lines: &mut Lines) {
    let count = lines.len() as u64;
    let other = busy_table(random, rules, 1);
    if count == 0 {
        lines.push(other);
        return;
    }
    let [at, to] = [(); 2].map(|_| random.below(count) as usize);
    match random.below(7) {
        0 => lines.swap(at, to),
        1 => drop(lines.remove(at)),
        2 => lines.insert(to, lines[at].clone()),
        3 => lines[at] = other,
        4 => lines.insert(at, other),
        5 => lines.insert(at, [samples::line(random, rules), b"\n".to_vec()].concat()),
        _ => lines[at] = samples::mutated(random, &lines[at]),
    }
}

/// A good table some edits away.
pub fn edited(random: &mut Random, rules: Rules, table: &[u8]) -> Vec<u8> {
    let mut lines = lines(table);
    for _ in 0..random.below(6) {
        let before = lines.clone();
        edit(random, rules, &mut lines);
        if read(&lines.concat(), rules).is_err() {
            lines = before;
        }
    }
    lines.concat()
}
