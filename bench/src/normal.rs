//! A large table written back in its normal form, beside the library's reading of it (`check`) and beside the second
//! program, which writes by trying what reads as the same.

use crate::measure::{in_turn, print_head, print_row, round};
use crate::table::{full, LISTS, WRITTEN};
use eremothyn::{Answer, Table};
use reference::table::normal::normal_form;
use reference::table::{ENTRIES, TABLE_BYTES};

const WRITES: usize = 50;

const SETTINGS: [&str; 4] = [
    "SHELL = /bin/sh",
    "MAILTO = \"duty office\"",
    "'a name' = \" a value \"",
    "PATH=/usr/local/bin:/usr/bin:/bin",
];

pub fn run() {
    let title = format!("normal, up to {TABLE_BYTES} bytes and {ENTRIES} entries written");
    print_head(&title, &["reading alone", "reference program"]);
    for (which, table) in tables() {
        compare(which, &table);
    }
}

/// Large tables of several sorts, each with a name.
pub fn tables() -> [(&'static str, Vec<u8>); 4] {
    let written = full(&WRITTEN);
    let normal = text_of(&written);
    [
        ("as people write it", written),
        ("in normal form already", normal),
        ("lists in every field", fitting(&LISTS)),
        ("settings alone", fitting(&SETTINGS)),
    ]
}

fn compare(which: &str, table: &[u8]) {
    let text = text_of(table);
    let mut other = vec![0; TABLE_BYTES];
    assert_eq!(normal_form(table, &mut other), Ok(text.len() as u64));
    assert_eq!(other[..text.len()], text);
    let inputs = vec![table; WRITES];
    let times = in_turn(&[
        &|| round(&inputs, library),
        &|| round(&inputs, |table| Table::of(table).check()),
        &|| round(&inputs, second),
    ]);
    print_row(which, times[0], &times[1..]);
}

fn library(table: &[u8]) -> Answer {
    let mut text = [0; TABLE_BYTES];
    Table::of(table).normal_form(&mut text[..])
}

fn second(table: &[u8]) -> Answer {
    let mut text = [0; TABLE_BYTES];
    normal_form(table, &mut text)
}

pub fn text_of(table: &[u8]) -> Vec<u8> {
    let mut text = vec![0; TABLE_BYTES];
    let length = Table::of(table).normal_form(&mut text[..]);
    text.truncate(length.expect("a text that fits") as usize);
    text
}

/// Lines in turn, as many as there is room for, also when they are written.
fn fitting(lines: &[&str]) -> Vec<u8> {
    let mut table = Vec::new();
    let mut written = 0;
    for line in lines.iter().cycle() {
        let line = format!("{line}\n");
        written += text_of(line.as_bytes()).len();
        if written.max(table.len() + line.len()) > TABLE_BYTES {
            break;
        }
        table.extend(line.bytes());
    }
    table
}
