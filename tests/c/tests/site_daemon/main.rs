//! `examples/site_daemon.c` with a clock that is handed in: the log beside the reference program's, and signals.

mod clocks;
mod log;
mod signals;
mod steps;

use c::{build, complaint, run, scratch, told, word};
use log::Shown;
use std::path::{Path, PathBuf};

/// The program and a crontab, in a folder of the test's own.
struct Site {
    folder: PathBuf,
    program: PathBuf,
}

impl Site {
    fn new(name: &str) -> Site {
        let folder = scratch(name);
        let program = build(&["examples/site_daemon.c"], &folder);
        Site { folder, program }
    }

    fn path(&self, name: &str) -> PathBuf {
        self.folder.join(name)
    }

    /// Writes the crontab, and says where it is.
    fn table(&self, table: impl AsRef<[u8]>) -> String {
        let path = self.path("table");
        std::fs::write(&path, table).expect("the table is written");
        word(&path).to_string()
    }
}

/// Runs the daemon over a clock, and answers its log.
fn log_of(site: &Site, options: &[&str], table: &str, clock: &[Shown]) -> String {
    let file = site.path("clock");
    let lines: String = clock.iter().map(|shown| shown.line()).collect();
    write(&file, &lines);
    let output = run(
        &site.program,
        &[&["-c", word(&file)], options, &[table]].concat(),
    );
    let (text, status) = told(&output);
    assert_eq!((status, complaint(&output)), (Some(0), String::new()));
    text
}

fn write(path: &Path, text: &str) {
    std::fs::write(path, text).expect("the file is written");
}
