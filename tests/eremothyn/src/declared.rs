//! A table, and the C functions that take one. What a table is to C stands in this file alone.

use crate::calls::counted;
use reference::table::{Dialect, Kind, Rules};
use std::marker::PhantomData;

/// How C says that a table is read. A kind other than 0 is a system table, a dialect other than 0 the second.
#[derive(Clone, Copy, Debug, Default, PartialEq, Eq)]
pub struct Numbers {
    pub kind: u64,
    pub dialect: u64,
}

impl Numbers {
    /// What they mean.
    pub fn rules(self) -> Rules {
        Rules::of(Kind::of(self.kind), Dialect::of(self.dialect))
    }
}

/// A kind's number, in the first dialect.
impl From<u64> for Numbers {
    fn from(kind: u64) -> Numbers {
        Numbers { kind, dialect: 0 }
    }
}

impl From<Rules> for Numbers {
    fn from(rules: Rules) -> Numbers {
        Numbers {
            kind: rules.kind.number(),
            dialect: rules.dialect.number(),
        }
    }
}

/// In the first dialect.
impl From<Kind> for Numbers {
    fn from(kind: Kind) -> Numbers {
        Rules::from(kind).into()
    }
}

/// Of a user table.
impl From<Dialect> for Numbers {
    fn from(dialect: Dialect) -> Numbers {
        Rules::from(dialect).into()
    }
}

/// A table for a call.
#[derive(Clone, Copy)]
pub struct Table<'a> {
    start: *const u8,
    length: u64,
    numbers: Numbers,
    lent: PhantomData<&'a [u8]>,
}

impl<'a> Table<'a> {
    /// A user table in the first dialect.
    #[inline]
    pub fn of(bytes: &'a [u8]) -> Table<'a> {
        // SAFETY: the bytes are borrowed for as long as the table lives.
        unsafe { Table::at(bytes.as_ptr(), bytes.len() as u64) }
    }

    /// The same bytes under any numbers.
    #[inline]
    pub fn under(self, numbers: impl Into<Numbers>) -> Table<'a> {
        Table {
            numbers: numbers.into(),
            ..self
        }
    }

    /// A user table in the first dialect, at any place, of any length.
    ///
    /// # Safety
    /// What a call touches of it may be read, and nobody writes to it.
    #[inline]
    pub unsafe fn at(start: *const u8, length: u64) -> Table<'a> {
        Table {
            start,
            length,
            numbers: Numbers::default(),
            lent: PhantomData,
        }
    }
}

/// Declares C functions by the parameters behind the table, and makes each a method of `Table` by the same name. The
/// numbers of a table that C gets behind its bytes stand first, in brackets.
macro_rules! functions_of_a_table {
    ($numbers:tt $($name:ident $parameters:tt;)*) => {
        $(function_of_a_table! { $numbers $name $parameters })*
    };
}

macro_rules! function_of_a_table {
    ([$($number:ident),*] $name:ident($($parameter:ident: $type:ty),*)) => {
        unsafe extern "C" {
            fn $name(table: *const u8, table_length: u64, $($number: u64,)* $($parameter: $type),*) -> u64;
        }

        /// Nothing is required of bytes or numbers; the pointers have as many bytes or numbers as the lengths beside them say.
        impl Table<'_> {
            #[inline]
            pub(crate) unsafe fn $name(self, $($parameter: $type),*) -> u64 {
                counted(unsafe { $name(self.start, self.length, $(self.numbers.$number,)* $($parameter),*) })
            }
        }
    };
}

functions_of_a_table! {
    [kind, dialect]
    eremothyn_check();
    eremothyn_fault_line();
    eremothyn_fault_column();
    eremothyn_due(entry: u64, minute: u64);
    eremothyn_next(entry: u64, minute: u64);
    eremothyn_firings(entry: u64, a: u64, b: u64, run: *mut u32, run_length: u64);
    eremothyn_merged_firings(
        a: u64,
        b: u64,
        minutes: *mut u32,
        minutes_length: u64,
        entries: *mut u16,
        entries_length: u64
    );
    eremothyn_entry_line(entry: u64);
    eremothyn_command_offset(entry: u64);
    eremothyn_command_length(entry: u64);
    eremothyn_split_command(
        entry: u64, shell: *mut u8, shell_length: u64, input: *mut u8, input_length: u64
    );
    eremothyn_stdin_length(entry: u64);
    eremothyn_user_offset(entry: u64);
    eremothyn_user_length(entry: u64);
    eremothyn_group_offset(entry: u64);
    eremothyn_group_length(entry: u64);
    eremothyn_class_offset(entry: u64);
    eremothyn_class_length(entry: u64);
    eremothyn_setting_name_offset(line: u64);
    eremothyn_setting_name_length(line: u64);
    eremothyn_setting_value_offset(line: u64);
    eremothyn_setting_value_length(line: u64);
    eremothyn_next_setting(line: u64);
    eremothyn_queue_init(room: *mut u8, room_length: u64);
    eremothyn_queue_tick(room: *mut u8, room_length: u64, minute: u64);
    eremothyn_queue_pop(room: *mut u8, room_length: u64);
    eremothyn_queue_entry(room: *const u8, room_length: u64, place: u64);
}

unsafe extern "C" {
    fn eremothyn_queue_reload(
        old_table: *const u8,
        old_length: u64,
        new_table: *const u8,
        new_length: u64,
        kind: u64,
        dialect: u64,
        room: *mut u8,
        room_length: u64,
    ) -> u64;
}

impl Table<'_> {
    /// Two tables in one call, which both have this one's numbers.
    pub(crate) unsafe fn eremothyn_queue_reload(
        self,
        new: Table,
        room: *mut u8,
        room_length: u64,
    ) -> u64 {
        let Numbers { kind, dialect } = self.numbers;
        counted(unsafe {
            eremothyn_queue_reload(
                self.start,
                self.length,
                new.start,
                new.length,
                kind,
                dialect,
                room,
                room_length,
            )
        })
    }
}

// These take a user table, whatever the table's kind is.
functions_of_a_table! {
    [dialect]
    eremothyn_normal_form(text: *mut u8, text_length: u64);
    eremothyn_compile(records: *mut u8, records_length: u64);
}
