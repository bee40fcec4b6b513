//! What a table says: its fault, its entries, their commands and users, its settings, its normal text, its records.

use crate::{Run, Table};
use reference::answer::{from_c, some_from_c, Answer};

// SAFETY, here and in `queue`: a table and a run have as many bytes as their lengths say.
impl Table<'_> {
    /// How many entries there are.
    pub fn check(self) -> Answer {
        from_c(unsafe { self.eremothyn_check() })
    }

    pub fn fault_line(self) -> u64 {
        unsafe { self.eremothyn_fault_line() }
    }

    pub fn fault_column(self) -> u64 {
        unsafe { self.eremothyn_fault_column() }
    }

    /// 1 if an entry is due, 0 if not.
    pub fn due(self, entry: u64, minute: u64) -> Answer {
        from_c(unsafe { self.eremothyn_due(entry, minute) })
    }

    pub fn next(self, entry: u64, minute: u64) -> Answer {
        from_c(unsafe { self.eremothyn_next(entry, minute) })
    }

    /// The length of an entry's shell line, which is written to the front of one run, as its input is to the other's.
    pub fn split_command<'s, 'i>(
        self,
        entry: u64,
        shell: impl Into<Run<'s>>,
        input: impl Into<Run<'i>>,
    ) -> Answer {
        let (shell, input) = (shell.into(), input.into());
        from_c(unsafe {
            self.eremothyn_split_command(
                entry,
                shell.start,
                shell.length,
                input.start,
                input.length,
            )
        })
    }

    pub fn entry_line(self, entry: u64) -> Answer {
        from_c(unsafe { self.eremothyn_entry_line(entry) })
    }

    /// Offset and length of an entry's command.
    pub fn command(self, entry: u64) -> [Answer; 2] {
        let parts = [
            Table::eremothyn_command_offset,
            Table::eremothyn_command_length,
        ];
        parts.map(|part| from_c(unsafe { part(self, entry) }))
    }

    /// The length of an entry's input; none is "no input".
    pub fn stdin_length(self, entry: u64) -> Result<Option<u64>, u64> {
        some_from_c(unsafe { self.eremothyn_stdin_length(entry) })
    }

    /// Offset and length of an entry's user, of its group and of its class; 0 and 0 where it is absent.
    pub fn user_column(self, entry: u64) -> [Answer; 6] {
        let parts = [
            Table::eremothyn_user_offset,
            Table::eremothyn_user_length,
            Table::eremothyn_group_offset,
            Table::eremothyn_group_length,
            Table::eremothyn_class_offset,
            Table::eremothyn_class_length,
        ];
        parts.map(|part| from_c(unsafe { part(self, entry) }))
    }

    /// The length of the normal text, which is written to the front of a run. The table is read as a user's.
    pub fn normal_form<'t>(self, text: impl Into<Run<'t>>) -> Answer {
        let text = text.into();
        from_c(unsafe { self.eremothyn_normal_form(text.start, text.length) })
    }

    /// The length of the records, which are written to the front of a run. The table is read as a user's.
    pub fn compile<'r>(self, records: impl Into<Run<'r>>) -> Answer {
        let records = records.into();
        from_c(unsafe { self.eremothyn_compile(records.start, records.length) })
    }

    /// The first line from a line on that has a setting.
    pub fn next_setting(self, line: u64) -> Answer {
        from_c(unsafe { self.eremothyn_next_setting(line) })
    }

    /// Name offset, name length, value offset and value length of a line's setting.
    pub fn setting(self, line: u64) -> [Answer; 4] {
        let parts = [
            Table::eremothyn_setting_name_offset,
            Table::eremothyn_setting_name_length,
            Table::eremothyn_setting_value_offset,
            Table::eremothyn_setting_value_length,
        ];
        parts.map(|part| from_c(unsafe { part(self, line) }))
    }
}
