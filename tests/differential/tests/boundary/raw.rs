//! The C functions with any pointers and lengths, as no slice has them.

use eremothyn::{Answer, Filled, Numbers, Records, Run, Table};

/// Numbers of both kinds and both dialects.
const NUMBERS: [u64; 5] = [0, 1, 2, 1 << 32, u64::MAX];

/// Each as a kind with each as a dialect.
pub fn all_numbers() -> impl Iterator<Item = Numbers> {
    let of = |kind| NUMBERS.map(|dialect| Numbers { kind, dialect });
    NUMBERS.into_iter().flat_map(of)
}

/// Where bytes start, and how many they are said to be.
#[derive(Clone, Copy)]
pub struct Place(pub *mut u8, pub u64);

impl Place {
    /// Bytes that the call only reads.
    pub fn of(bytes: &[u8]) -> Place {
        Place(bytes.as_ptr().cast_mut(), bytes.len() as u64)
    }

    pub fn of_mut(bytes: &mut [u8]) -> Place {
        Place(bytes.as_mut_ptr(), bytes.len() as u64)
    }

    pub fn table(self) -> Table<'static> {
        // SAFETY: a call that touches what isn't lent kills the process, which is what the tests are for. So below.
        unsafe { Table::at(self.0, self.1) }
    }

    pub fn records(self) -> Records<'static> {
        unsafe { Records::at(self.0, self.1) }
    }

    pub fn run(self) -> Run<'static> {
        unsafe { Run::at(self.0, self.1) }
    }
}

/// An answer in which none, "no input" or "nothing waits", is the number that C gets for it.
pub fn number(answer: Result<Option<u64>, u64>) -> Answer {
    answer.map(|some| some.unwrap_or(eremothyn::REFUSED))
}

/// Due, next, the input's length, the line and the command of an entry, and the six numbers of its user column.
pub fn entry_answers(table: Table, entry: u64) -> [Answer; 12] {
    let due = table.due(entry, 0);
    let next = table.next(entry, 0);
    let input = number(table.stdin_length(entry));
    let line = table.entry_line(entry);
    let [offset, length] = table.command(entry);
    let [a, b, c, d, e, f] = table.user_column(entry);
    [due, next, input, line, offset, length, a, b, c, d, e, f]
}

/// The four parts of a line's setting, and the first line from it on that has one.
pub fn line_answers(table: Table, line: u64) -> [Answer; 5] {
    let [a, b, c, d] = table.setting(line);
    [a, b, c, d, table.next_setting(line)]
}

/// Check, fault line and fault column.
pub fn judged(table: Table) -> (Answer, u64, u64) {
    (table.check(), table.fault_line(), table.fault_column())
}

pub fn split(table: Table, entry: u64, shell: Place, input: Place) -> Answer {
    table.split_command(entry, shell.run(), input.run())
}

/// The lengths of the normal text and of the records, each written to a place of its own.
pub fn texts(table: Table, [text, records]: [Place; 2]) -> [Answer; 2] {
    [table.normal_form(text.run()), table.compile(records.run())]
}

/// The length of the text that records mean, and the number of the bad one.
pub fn decompiled(records: Place, text: Place) -> (Answer, u64) {
    let records = records.records();
    (records.decompile(text.run()), records.fault())
}

/// The firings of an entry and of the table after minute 0 and up to 2, in runs of minutes and of entries. Their places count
/// numbers, and not bytes.
pub fn lists(table: Table, entry: u64, [minutes, entries]: [Place; 2]) -> [Result<Filled, u64>; 2] {
    let run = || unsafe { Run::at(minutes.0.cast::<u32>(), minutes.1) };
    let numbers = unsafe { Run::at(entries.0.cast::<u16>(), entries.1) };
    [
        table.firings(entry, [0, 2], run()),
        table.merged_firings([0, 2], run(), numbers),
    ]
}

/// How a list is answered of which so many fit.
pub fn fit(count: u64, more: bool) -> Result<Filled, u64> {
    Ok(Filled { count, more })
}

/// A fresh line, minute 0 announced, who stands at the front, the same table again, and a request.
pub fn queue_answers(table: Table, room: Place) -> [Answer; 5] {
    [
        table.queue_init(room.run()),
        table.queue_tick(room.run(), 0),
        number(table.queue_entry(room.run(), 0)),
        table.queue_reload(table, room.run()),
        number(table.queue_pop(room.run())),
    ]
}

/// The date of a minute, in a run whose places count numbers.
pub fn date(minute: u64, run: Place) -> Answer {
    let run = unsafe { Run::at(run.0.cast::<u16>(), run.1) };
    eremothyn::date(minute, run)
}
