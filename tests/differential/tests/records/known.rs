//! Records written by hand, from the ticket's words.

use differential::records::Compared;
use differential::samples::ended;
use differential::table;
use eremothyn::{Records, Table};
use reference::table::records::known::{
    bad_entries, hex, LINES, NO_LINES, RECORDS, REFUSED, TABLE, TEXT,
};

fn compiled(text: &str) -> Vec<u8> {
    let table = ended(text);
    table::Compared::of(&table).compile_into_all();
    let mut records = [0; 2_000];
    let length = Table::of(&table).compile(&mut records[..]);
    records[..length.expect(text) as usize].to_vec()
}

fn decompiled(records: &[u8]) -> Result<String, u64> {
    Compared::of(records).decompile_into_all();
    let mut text = [0; 2_000];
    let length = Records::of(records).decompile(&mut text[..])?;
    Ok(String::from_utf8_lossy(&text[..length as usize]).into_owned())
}

#[test]
fn tables_and_their_records() {
    let [lines, texts, records] = [
        LINES.map(|row| row.0).join("\n"),
        LINES.map(|row| row.1).concat(),
        LINES.map(|row| row.2).join(" "),
    ];
    let tables = [(TABLE, TEXT, RECORDS), (&lines, &texts, &records)];
    for (table, text, records) in LINES.into_iter().chain(tables) {
        assert_eq!(compiled(table), hex(records), "{table}");
        assert_eq!(compiled(text), hex(records), "{table}");
        assert_eq!(decompiled(&hex(records)).as_deref(), Ok(text), "{table}");
    }
}

#[test]
fn refused_records() {
    for (dump, fault, text) in REFUSED {
        let records = hex(dump);
        assert_eq!(Records::of(&records).fault(), fault, "{dump}");
        assert_eq!(decompiled(&records), text.map(str::to_string), "{dump}");
    }
    let others = NO_LINES.iter().map(|dump| hex(dump));
    for bad in bad_entries().into_iter().chain(others) {
        assert_eq!(Records::of(&bad).fault(), 1, "{bad:02x?}");
        assert_eq!(decompiled(&bad), Err(24), "{bad:02x?}");
    }
}
