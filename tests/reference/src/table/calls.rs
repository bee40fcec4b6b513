//! The paper's "What comes back": the calls with a table, each with its refusals in their order.

use super::{read, Entry, Fault, Place, Rules, Setting, Table};
use crate::answer::Answer;
use crate::calendar::LAST_MINUTE;
use crate::command::{split, Command};

const NO_ENTRY: u64 = 13;
pub(super) const NOT_ON_CALENDAR: u64 = 14;
pub(super) const BUFFER_TOO_SHORT: u64 = 18;
const NO_SETTING: u64 = 19;

/// A table that was read, or why it is refused.
pub struct Calls<'a> {
    pub table: Result<Table<'a>, Fault>,
}

impl<'a> Calls<'a> {
    pub fn of(bytes: &'a [u8], rules: impl Into<Rules>) -> Calls<'a> {
        Calls {
            table: read(bytes, rules),
        }
    }

    /// How many entries there are.
    pub fn check(&self) -> Answer {
        self.good().map(|table| table.entries.len() as u64)
    }

    pub fn fault_line(&self) -> u64 {
        self.table.as_ref().err().map_or(0, |fault| fault.line)
    }

    pub fn fault_column(&self) -> u64 {
        self.table.as_ref().err().map_or(0, |fault| fault.column)
    }

    pub fn due(&self, entry: u64, minute: u64) -> Answer {
        let entry = self.entry(entry)?;
        if minute > LAST_MINUTE {
            return Err(NOT_ON_CALENDAR);
        }
        Ok(entry.matches(minute).into())
    }

    pub fn next(&self, entry: u64, minute: u64) -> Answer {
        let entry = self.entry(entry)?;
        if minute > LAST_MINUTE {
            return Err(NOT_ON_CALENDAR);
        }
        entry.next_after(minute)
    }

    /// An entry's command, split.
    pub fn command(&self, entry: u64) -> Result<Command, u64> {
        self.entry(entry).map(|entry| split(entry.command))
    }

    /// Writes an entry's shell line and input to the front of two buffers, and answers the shell line's length.
    pub fn split_command(&self, entry: u64, shell: &mut [u8], input: &mut [u8]) -> Answer {
        let command = self.command(entry)?;
        let written = command.input.unwrap_or_default();
        if command.shell.len() > shell.len() || written.len() > input.len() {
            return Err(BUFFER_TOO_SHORT);
        }
        shell[..command.shell.len()].copy_from_slice(&command.shell);
        input[..written.len()].copy_from_slice(&written);
        Ok(command.shell.len() as u64)
    }

    /// The length of an entry's input; none is "no input".
    pub fn stdin_length(&self, entry: u64) -> Result<Option<u64>, u64> {
        let command = self.command(entry)?;
        Ok(command.input.map(|input| input.len() as u64))
    }

    /// Offset and length of an entry's user, of its group and of its class: 0 and 0 where it is absent.
    pub fn user_column(&self, entry: u64) -> Result<[[u64; 2]; 3], u64> {
        let parts = self.entry(entry)?.column.parts();
        Ok(parts.map(|part| {
            part.map_or([0, 0], |part| {
                [part.offset, part.length].map(|number| number as u64)
            })
        }))
    }

    pub fn setting(&self, line: u64) -> Result<Setting, u64> {
        self.good()?.setting(line).ok_or(NO_SETTING)
    }

    /// The first line from a line on that has a setting.
    pub fn next_setting(&self, line: u64) -> Answer {
        let mut lines = self.good()?.settings.iter().map(|&(of, _)| of);
        lines.find(|&of| of >= line).ok_or(NO_SETTING)
    }

    /// Where an entry stands.
    pub fn place(&self, entry: u64) -> Result<Place, u64> {
        let _ = self.entry(entry)?;
        Ok(self.good()?.places[entry as usize])
    }

    pub(super) fn good(&self) -> Result<&Table<'a>, u64> {
        self.table.as_ref().map_err(|fault| fault.number)
    }

    pub(super) fn entry(&self, entry: u64) -> Result<&Entry<'a>, u64> {
        let entries = &self.good()?.entries;
        if entry >= entries.len() as u64 {
            return Err(NO_ENTRY);
        }
        Ok(&entries[entry as usize])
    }
}
