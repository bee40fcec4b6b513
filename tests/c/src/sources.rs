//! The files of the repository, and their comments.

use std::fs;
use std::path::{Path, PathBuf};

/// The files of a folder, and of those in it, but for what `rt` keeps in a crate's `out`.
pub fn files(folder: &Path) -> Vec<PathBuf> {
    let entries = fs::read_dir(folder).expect("a folder");
    let paths = entries.map(|entry| entry.expect("an entry").path());
    let paths = paths.filter(|path| !path.ends_with("out"));
    let within = paths.map(|path| match path.is_dir() {
        true => files(&path),
        false => vec![path],
    });
    within.flatten().collect()
}

/// The code of a file and its comments, each without the other, lines joined by spaces.
pub fn code_and_comments(path: &Path) -> (String, String) {
    let text = fs::read_to_string(path).expect("a text");
    let sign = match path.extension().unwrap_or_default().to_str() {
        Some("antt") => "--",
        Some("rt" | "rs") => "//",
        // Comments in C have lines of their own.
        _ => "/*",
    };
    let (mut code, mut comments) = (String::new(), String::new());
    for line in text.lines() {
        let (before, comment) = match line.split_once(sign) {
            _ if sign == "/*" && line.trim_start().starts_with("* ") => ("", line),
            Some((before, comment)) if before.trim_end() != before || before.is_empty() => {
                (before, comment)
            }
            _ => (line, ""),
        };
        code.extend([before, " "]);
        comments.extend([comment.trim(), " "]);
    }
    (code, comments)
}
