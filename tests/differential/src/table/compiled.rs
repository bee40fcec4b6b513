//! A table's records, as the library and the reference program write them. Whatever its kind, it is read as a user table.

use super::Compared;
use crate::records;
use crate::writing::{lengths, written};
use eremothyn::Answer;
use reference::table::records::compiled_of;

impl Compared<'_> {
    /// Writes the records into a buffer of a given length. Every byte of it is compared.
    pub fn compile(&self, length: usize) -> Answer {
        self.compile_as(&self.records(), length)
    }

    /// The records by the reference program, or the refusal that no buffer helps against.
    pub fn records(&self) -> Result<Vec<u8>, u64> {
        compiled_of(self.bytes, self.numbers.rules().dialect)
    }

    /// Writes into buffers that are just long enough, longer, and too short.
    pub fn compile_into_all(&self) {
        let records = self.records();
        for length in lengths(&records) {
            let _ = self.compile_as(&records, length);
        }
    }

    /// Compiles a table that has records, decompiles them and compiles again: the normal text comes out, and the same records.
    pub fn there_and_back(&self) -> Vec<u8> {
        self.compile_into_all();
        let shown = self.shown();
        let text = self.normal_text().expect("a text that fits");
        let records = self.records().expect("a text that fits");
        let back = records::Compared::of(&records);
        back.decompile_into_all();
        assert_eq!(back.text.as_ref(), Ok(&text), "{shown}");
        let again = Compared::of(&text);
        again.compile_into_all();
        assert_eq!(again.records().as_ref(), Ok(&records), "{shown}");
        records
    }

    fn compile_as(&self, records: &Result<Vec<u8>, u64>, length: usize) -> Answer {
        let what = || format!("compile of {}", self.shown());
        written(what, records, length, |lent| self.table().compile(lent))
    }
}
