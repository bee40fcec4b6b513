//! Colours: at a terminal that likes them, and nowhere else.

use super::check_in;
use c::{word, Subcommand};
use std::process::Command;

const TABLE: &str = "0 24 * * * x\n";
const WARNED: &str = "0 0 30 2 * x\n";

/// What a call prints at a terminal of its own, with its newlines as they were written.
fn at_a_terminal(check: &Subcommand, environment: &str, arguments: &str) -> String {
    let call = format!("{environment} '{}' {arguments}", word(&check.program));
    let output = Command::new("script")
        .current_dir(&check.folder)
        .env_remove("NO_COLOR")
        .env("TERM", "xterm")
        .args(["-qec", &format!("env {call}"), "/dev/null"])
        .stdin(std::process::Stdio::null())
        .output()
        .expect("script runs");
    String::from_utf8_lossy(&output.stdout).replace("\r\n", "\n")
}

fn in_folder(name: &str) -> Subcommand {
    let check = check_in(name);
    check.write("t", TABLE);
    check.write("w", WARNED);
    check
}

const PLAIN: &str = "t:1:3: error: hour: 24 is outside 0-23 [6]\n    0 24 * * * x\n      ^~\n    \
    hint: midnight is hour 0\nt: refused: 1 error\n";

/// Where codes stand, as gcc has them: the place is bold, error red, warning magenta, the caret green.
#[test]
fn a_terminal_has_colours() {
    let check = in_folder("check-colours");
    let error = "\x1b[1mt:1:3:\x1b[0m \x1b[1;31merror:\x1b[0m hour: 24 is outside 0-23 [6]\n    \
        0 24 * * * x\n      \x1b[1;32m^~\x1b[0m\n    \x1b[1;36mhint:\x1b[0m midnight is hour 0\n\
        t: refused: 1 error\n";
    assert_eq!(at_a_terminal(&check, "", "check t"), error);
    let warning = "\x1b[1mw:1:5:\x1b[0m \x1b[1;35mwarning:\x1b[0m the entry never fires: there is no such date [never]\n    \
        0 0 30 2 * x\n        \x1b[1;32m^~~~\x1b[0m\nw: 1 entry, 1 warning\n";
    assert_eq!(at_a_terminal(&check, "", "check w"), warning);
    let short = "\x1b[1mt:1:3:\x1b[0m \x1b[1;31merror:\x1b[0m hour: 24 is outside 0-23 [6]\n";
    assert_eq!(at_a_terminal(&check, "", "check --short t"), short);
    // An empty NO_COLOR is none.
    assert_eq!(at_a_terminal(&check, "NO_COLOR=", "check t"), error);
    // Of another subcommand it is standard error that counts.
    assert_eq!(at_a_terminal(&check, "", "format t"), error);
    assert_eq!(at_a_terminal(&check, "", "format t > /dev/null"), error);
}

#[test]
fn nothing_else_has_colours() {
    let check = in_folder("check-plain");
    for environment in ["NO_COLOR=1", "NO_COLOR=0", "TERM=dumb", "-u TERM"] {
        assert_eq!(
            at_a_terminal(&check, environment, "check t"),
            PLAIN,
            "{environment}"
        );
        assert_eq!(
            at_a_terminal(&check, environment, "format t"),
            PLAIN,
            "{environment}"
        );
    }
    assert_eq!(at_a_terminal(&check, "", "check t | cat"), PLAIN);
    assert_eq!(at_a_terminal(&check, "", "format t 2>&1 | cat"), PLAIN);
    let piped = check.command(&["t"]).env("TERM", "xterm").output();
    assert_eq!(piped.expect("the command runs").stdout, PLAIN.as_bytes());
}
