//! What the program `crontab_firings` must print: `crontab_firings FILE A B`, by the reference program. The stored outputs of the
//! program are made by it.

use reference::table::firings::printed;
use std::env;
use std::ffi::OsString;
use std::fs;
use std::os::unix::ffi::OsStrExt;

fn main() {
    let arguments: Vec<OsString> = env::args_os().skip(1).collect();
    let text = match &arguments[..] {
        [file, a, b] => printed(fs::read(file).ok().as_deref(), a.as_bytes(), b.as_bytes()),
        _ => printed(None, b"", b""),
    };
    print!("{text}");
}
