//! Commands split into buffers of every length about what is needed.

use differential::samples::{any_rules, of_kind};
use differential::table::Compared;
use reference::random::Random;
use reference::table::LINE_BYTES;

/// So many bytes of a command, most of which mean something, and the first of which isn't blank.
fn command(random: &mut Random, length: usize) -> Vec<u8> {
    let mut command: Vec<u8> = (0..length).map(|_| random.pick(b"%%\\\\ab \t")).collect();
    command[0] = random.pick(b"%\\a");
    command
}

/// Both buffers of every length up to these numbers beyond what is needed, from 0 or from as much before it.
fn split_into_every(compared: &Compared, entry: u64, before: usize, beyond: usize) {
    let [shells, inputs] = compared
        .needed(entry)
        .map(|needed| needed.saturating_sub(before)..=needed + beyond);
    for shell in shells {
        for input in inputs.clone() {
            let _ = compared.split_command(entry, [shell, input]);
        }
    }
}

#[test]
fn short_commands_into_all_buffers() {
    let mut random = Random::seeded();
    for _ in 0..2_000 {
        let rules = any_rules(&mut random);
        let length = 1 + random.below(14) as usize;
        let start = of_kind("@daily ~", rules);
        let table = [start.as_bytes(), &command(&mut random, length), b"\n"].concat();
        let compared = Compared::under(&table, rules);
        split_into_every(&compared, 0, length, 2);
    }
}

#[test]
fn long_commands_into_buffers_about_the_needed_length() {
    let mut random = Random::seeded();
    for _ in 0..500 {
        let rules = any_rules(&mut random);
        let start = of_kind("@reboot\t~", rules);
        let length = LINE_BYTES - start.len() - random.below(3) as usize;
        let rare = random.below(2) == 0;
        let mut command = command(&mut random, length);
        if rare {
            // One break in a long text.
            command.fill(b'a');
            command[random.below(length as u64) as usize] = random.pick(b"%\\");
        }
        let line = [start.as_bytes(), &command].concat();
        let table = [&line[..], b"@daily a b", &line, b""].join(&b'\n');
        let compared = Compared::under(&table, rules);
        for entry in [0, 2] {
            split_into_every(&compared, entry, 2, 2);
            // A command's length is always room enough.
            assert!(compared.split_command(entry, [length; 2]).is_ok());
        }
    }
}
