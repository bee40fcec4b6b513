//! A large table compiled to records, and decompiled, each beside the library's reading of the table (`check`) and beside the
//! reference program. Then what a link has to carry: the bytes of a table, of its normal text and of its records.

use crate::measure::{in_turn, print_head, print_row, round};
use crate::normal::{tables, text_of};
use eremothyn::{Answer, Records, Table};
use reference::table::records::{compile, decompile};
use reference::table::{ENTRIES, TABLE_BYTES};

const CALLS: usize = 50;

/// No compiled table has more bytes.
const RECORDS_BYTES: usize = 114_688;

const EXAMPLES: [(&str, &[u8]); 2] = [
    (
        "observatory.crontab",
        include_bytes!("../../examples/observatory.crontab"),
    ),
    (
        "system.crontab, as a user's",
        include_bytes!("../../examples/system.crontab"),
    ),
];

pub fn run() {
    let others = ["reading alone", "reference program"];
    let title = format!("records, up to {TABLE_BYTES} bytes and {ENTRIES} entries");
    print_head(&format!("{title} compiled"), &others);
    for (which, table) in tables() {
        compare_compiling(which, &table);
    }
    print_head(&format!("{title} decompiled"), &others);
    for (which, table) in tables() {
        compare_decompiling(which, &table);
    }
    print_sizes();
}

fn compare_compiling(which: &str, table: &[u8]) {
    let records = records_of(table);
    let mut other = vec![0; RECORDS_BYTES];
    assert_eq!(compile(table, &mut other), Ok(records.len() as u64));
    assert_eq!(other[..records.len()], records);
    let inputs = vec![table; CALLS];
    let times = in_turn(&[
        &|| round(&inputs, compile_by_library),
        &|| round(&inputs, |table| Table::of(table).check()),
        &|| round(&inputs, |table| compile(table, &mut [0; RECORDS_BYTES])),
    ]);
    print_row(which, times[0], &times[1..]);
}

fn compare_decompiling(which: &str, table: &[u8]) {
    let (text, records) = (text_of(table), records_of(table));
    let mut other = vec![0; TABLE_BYTES];
    assert_eq!(decompile(&records, &mut other), Ok(text.len() as u64));
    assert_eq!(other[..text.len()], text);
    let (tables, inputs) = (vec![table; CALLS], vec![&records[..]; CALLS]);
    let times = in_turn(&[
        &|| round(&inputs, decompile_by_library),
        &|| round(&tables, |table| Table::of(table).check()),
        &|| round(&inputs, |records| decompile(records, &mut [0; TABLE_BYTES])),
    ]);
    print_row(which, times[0], &times[1..]);
}

fn compile_by_library(table: &[u8]) -> Answer {
    let mut records = [0; RECORDS_BYTES];
    Table::of(table).compile(&mut records[..])
}

fn decompile_by_library(records: &[u8]) -> Answer {
    let mut text = [0; TABLE_BYTES];
    Records::of(records).decompile(&mut text[..])
}

fn records_of(table: &[u8]) -> Vec<u8> {
    let mut records = vec![0; RECORDS_BYTES];
    let length = Table::of(table).compile(&mut records[..]);
    records.truncate(length.expect("a text that fits") as usize);
    records
}

fn print_sizes() {
    println!("records, bytes of a table, of its normal text and of its records; (times the table, times the text)");
    println!("{:<32}{:>10}{:>12}{:>10}", "", "table", "text", "records");
    for (which, table) in EXAMPLES {
        print_size(which, table);
    }
    for (which, table) in tables() {
        print_size(which, &table);
    }
}

fn print_size(which: &str, table: &[u8]) {
    let [table, text, records] = [table.len(), text_of(table).len(), records_of(table).len()];
    let [of_table, of_text] = [table, text].map(|other| records as f64 / other as f64);
    println!("{which:<32}{table:>10}{text:>12}{records:>10}  ({of_table:.2}, {of_text:.2})");
}
