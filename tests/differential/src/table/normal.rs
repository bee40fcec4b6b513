//! A table's normal text, as the library and the reference program write it. Whatever its kind, it is read as a user table.

use super::Compared;
use crate::writing::{lengths, written};
use eremothyn::Answer;
use reference::table::normal::normal_text_of;

impl Compared<'_> {
    /// Writes the normal text into a buffer of a given length. Every byte of it is compared.
    pub fn normal_form(&self, length: usize) -> Answer {
        self.normal_form_as(&self.normal_text(), length)
    }

    /// The normal text by the reference program, or the refusal that no buffer helps against.
    pub fn normal_text(&self) -> Result<Vec<u8>, u64> {
        normal_text_of(self.bytes, self.numbers.rules().dialect)
    }

    /// Writes into buffers that are just long enough, longer, and too short.
    pub fn normal_form_into_all(&self) {
        let text = self.normal_text();
        for length in lengths(&text) {
            let _ = self.normal_form_as(&text, length);
        }
    }

    fn normal_form_as(&self, text: &Result<Vec<u8>, u64>, length: usize) -> Answer {
        let what = || format!("normal_form of {}", self.shown());
        written(what, text, length, |lent| self.table().normal_form(lent))
    }
}
