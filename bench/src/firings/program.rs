//! The program, from its start to the end of its output, which goes to a pipe and is counted.

use super::lists::winter;
use crate::table::{entries_alone, WRITTEN};
use reference::table::firings::printed;
use std::io::Read;
use std::path::Path;
use std::process::{Command, Stdio};
use std::time::Instant;
use std::{env, fs};

const ROUNDS: usize = 3;

pub fn run() {
    let program = Path::new(env!("CARGO_MANIFEST_DIR")).join("../target/bin/crontab_firings");
    if !program.is_file() {
        println!("firings, the program: target/bin/crontab_firings isn't there; `make target/bin/crontab_firings` makes it");
        return;
    }
    let folder = env::temp_dir().join(format!("eremothyn-bench-{}", std::process::id()));
    fs::create_dir_all(&folder).expect("a folder");
    println!("firings, the program over a winter, least of {ROUNDS} rounds");
    println!(
        "{:<32}{:>12}{:>12}{:>20}",
        "", "lines", "seconds", "million lines a s"
    );
    for (what, table) in [
        ("512 entries", entries_alone(&WRITTEN)),
        ("one entry, every minute", b"* * * * * a\n".to_vec()),
    ] {
        let path = folder.join("table");
        fs::write(&path, &table).expect("the table is written");
        let [a, b] = winter().map(|minute| minute.to_string());
        let expected = printed(Some(&table), a.as_bytes(), b.as_bytes());
        let mut least = f64::INFINITY;
        for _ in 0..ROUNDS {
            let start = Instant::now();
            let mut child = Command::new(&program)
                .args([path.as_os_str(), a.as_ref(), b.as_ref()])
                .stdout(Stdio::piped())
                .spawn()
                .expect("the program runs");
            let mut text = Vec::with_capacity(expected.len());
            let mut output = child.stdout.take().expect("a pipe");
            output.read_to_end(&mut text).expect("the list");
            let _ = child.wait();
            least = least.min(start.elapsed().as_secs_f64());
            assert!(
                text == expected.as_bytes(),
                "the program lists something else"
            );
        }
        let lines = expected.lines().count();
        println!(
            "{what:<32}{lines:>12}{least:>12.3}{:>20.2}",
            lines as f64 / least / 1e6
        );
    }
    let _ = fs::remove_dir_all(&folder);
}
