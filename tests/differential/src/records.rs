//! Records lent to the library, and the same records read by the reference program. Every call is compared with the second
//! program's answer. The lent bytes end at guard pages, and the records' are read-only.

use crate::writing::{lengths, written};
use eremothyn::{Answer, Records};
use guard::Guarded;
use reference::table::records::{decompiled, record_fault};

pub struct Compared<'a> {
    bytes: &'a [u8],
    lent: Guarded,
    /// The number of the first bad record, or 0.
    pub fault: u64,
    /// The text by the reference program, or the refusal that no buffer helps against.
    pub text: Result<Vec<u8>, u64>,
}

impl<'a> Compared<'a> {
    /// Records of any bytes, with the number of their fault compared.
    pub fn of(bytes: &'a [u8]) -> Compared<'a> {
        let compared = Compared {
            bytes,
            lent: Guarded::read_only(bytes),
            fault: record_fault(bytes),
            text: decompiled(bytes),
        };
        let library = compared.records().fault();
        assert!(
            library == compared.fault,
            "record_fault of {}: library {library}, reference program {}",
            compared.shown(),
            compared.fault
        );
        compared
    }

    /// Writes the text into a buffer of a given length. Every byte of it is compared.
    pub fn decompile(&self, length: usize) -> Answer {
        let what = || format!("decompile of {}", self.shown());
        written(what, &self.text, length, |lent| {
            self.records().decompile(lent)
        })
    }

    /// Writes the text into a buffer that is just long enough.
    pub fn decompile_whole(&self) -> Answer {
        self.decompile(self.text.as_ref().map_or(0, Vec::len))
    }

    /// Writes into buffers that are just long enough, longer, and too short.
    pub fn decompile_into_all(&self) {
        for length in lengths(&self.text) {
            let _ = self.decompile(length);
        }
    }

    fn records(&self) -> Records<'_> {
        Records::of(&self.lent)
    }

    fn shown(&self) -> String {
        const MOST: usize = 2_000;
        let start = &self.bytes[..self.bytes.len().min(MOST)];
        format!("the records {start:02x?} ({} bytes)", self.bytes.len())
    }
}
