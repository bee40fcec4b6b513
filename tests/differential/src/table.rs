//! A table lent to the library, and the same table read by the reference program. Every call is compared with the second
//! program's answer. The lent bytes end at guard pages, and the table's are read-only.

mod compiled;
mod firings;
mod normal;

use crate::spans;
use eremothyn::{Answer, Numbers, Table};
use guard::{filled, Guarded};
use reference::random::Random;
use reference::schedule::samples;
use reference::table::calls::Calls;
use reference::table::{Fault, Kind, Place, Rules, Setting};
use std::iter;

/// Entry and line numbers that no table has.
const WILD: [u64; 9] = [
    513,
    1 << 10,
    1 << 16,
    (1 << 32) - 1,
    1 << 32,
    1 << 63,
    (1 << 63) + (1 << 32),
    u64::MAX - 1,
    u64::MAX,
];

/// As many entries and lines of a large table are asked about, and as many starts of each entry.
const ENTRIES: u64 = 6;
const LINES: u64 = 12;
const STARTS: usize = 2;

pub struct Compared<'a> {
    bytes: &'a [u8],
    lent: Guarded,
    numbers: Numbers,
    second: Calls<'a>,
}

impl<'a> Compared<'a> {
    /// A user table in the first dialect.
    pub fn of(bytes: &'a [u8]) -> Compared<'a> {
        Compared::under(bytes, Kind::User)
    }

    /// A system table in the first dialect.
    pub fn system(bytes: &'a [u8]) -> Compared<'a> {
        Compared::under(bytes, Kind::System)
    }

    /// A table under any numbers, with its three calls compared, and with those of the same bytes under all other rules.
    pub fn under(bytes: &'a [u8], numbers: impl Into<Numbers>) -> Compared<'a> {
        let numbers = numbers.into();
        let mut lent = Guarded::read_only(bytes);
        for rules in Rules::ALL {
            if rules != numbers.rules() {
                lent = Compared::judged(bytes, lent, rules.into()).lent;
            }
        }
        Compared::judged(bytes, lent, numbers)
    }

    /// A table that is lent already, with its three calls compared.
    fn judged(bytes: &'a [u8], lent: Guarded, numbers: Numbers) -> Compared<'a> {
        let compared = Compared {
            bytes,
            lent,
            numbers,
            second: Calls::of(bytes, numbers.rules()),
        };
        let (table, second) = (compared.table(), &compared.second);
        let _ = compared.agree("check", table.check(), second.check());
        compared.agree("fault_line", table.fault_line(), second.fault_line());
        compared.agree("fault_column", table.fault_column(), second.fault_column());
        compared
    }

    /// Number, line and column of the table's refusal.
    pub fn fault(&self) -> Option<[u64; 3]> {
        let numbers = |fault: &Fault| [fault.number, fault.line, fault.column];
        self.second.table.as_ref().err().map(numbers)
    }

    pub fn check(&self) -> Answer {
        self.second.check()
    }

    pub fn due(&self, entry: u64, minute: u64) -> Answer {
        let library = self.table().due(entry, minute);
        let second = self.second.due(entry, minute);
        self.agree(("due", entry, minute), library, second)
    }

    pub fn next(&self, entry: u64, minute: u64) -> Answer {
        let library = self.table().next(entry, minute);
        let second = self.second.next(entry, minute);
        self.agree(("next", entry, minute), library, second)
    }

    /// An entry's line, and offset and length of its command.
    pub fn place(&self, entry: u64) -> Result<Place, u64> {
        let second = self.second.place(entry);
        let expected = match second {
            Ok(Place { line, command }) => {
                [line, command.offset as u64, command.length as u64].map(Ok)
            }
            Err(refusal) => [Err(refusal); 3],
        };
        let [offset, length] = self.table().command(entry);
        let library = [self.table().entry_line(entry), offset, length];
        let _ = self.agree(("place", entry), library, expected);
        second
    }

    pub fn stdin_length(&self, entry: u64) -> Result<Option<u64>, u64> {
        let library = self.table().stdin_length(entry);
        let second = self.second.stdin_length(entry);
        self.agree(("stdin_length", entry), library, second)
    }

    /// Offset and length of an entry's user, of its group and of its class.
    pub fn user_column(&self, entry: u64) -> Result<[[u64; 2]; 3], u64> {
        let second = self.second.user_column(entry);
        let expected = match second {
            Ok([[a, b], [c, d], [e, f]]) => [a, b, c, d, e, f].map(Ok),
            Err(refusal) => [Err(refusal); 6],
        };
        let library = self.table().user_column(entry);
        let _ = self.agree(("user_column", entry), library, expected);
        second
    }

    pub fn setting(&self, line: u64) -> Result<Setting, u64> {
        let second = self.second.setting(line);
        let numbers = second.map(|Setting { name, value }| {
            [name.offset, name.length, value.offset, value.length].map(|number| number as u64)
        });
        let expected = match numbers {
            Ok(numbers) => numbers.map(Ok),
            Err(refusal) => [Err(refusal); 4],
        };
        let _ = self.agree(("setting", line), self.table().setting(line), expected);
        second
    }

    /// The first line from a line on that has a setting.
    pub fn next_setting(&self, line: u64) -> Answer {
        let library = self.table().next_setting(line);
        let second = self.second.next_setting(line);
        self.agree(("next_setting", line), library, second)
    }

    /// The lines of all settings, each asked for from the one before.
    pub fn setting_lines(&self) -> Vec<u64> {
        let next = |line: u64| self.next_setting(line).ok();
        iter::successors(next(0), |line| next(line + 1)).collect()
    }

    /// Splits a command into two buffers of given lengths. Every byte of both is compared.
    pub fn split_command(&self, entry: u64, lengths: [usize; 2]) -> Answer {
        let run = |split: &dyn Fn(&mut [u8], &mut [u8]) -> Answer| {
            let [mut shell, mut input] = lengths.map(filled);
            let answer = split(&mut shell, &mut input);
            (answer, shell, input)
        };
        let second = run(&|shell, input| self.second.split_command(entry, shell, input));
        let library = run(&|shell, input| {
            Guarded::lend(shell, |shell| {
                Guarded::lend(input, |input| {
                    self.table().split_command(entry, shell, input)
                })
            })
        });
        assert_eq!(
            library,
            second,
            "split_command {entry} into {lengths:?} of {}: library, reference program",
            self.shown()
        );
        library.0
    }

    /// The lengths of a command's shell line and input; 1 and 1 if there is no such entry.
    pub fn needed(&self, entry: u64) -> [usize; 2] {
        let command = self.second.command(entry);
        command.map_or([1, 1], |command| {
            [command.shell.len(), command.input.unwrap_or_default().len()]
        })
    }

    /// Splits into buffers that are just long enough, longer, and too short.
    pub fn split_into_all(&self, entry: u64) {
        let [shell, input] = self.needed(entry);
        let short = |length: usize| length.saturating_sub(1);
        let lengths = [
            [shell, input],
            [shell + 3, input + 9],
            [short(shell), input],
            [shell, short(input)],
            [short(shell), short(input)],
            [short(shell), input + 100],
            [shell + 100, short(input)],
            [shell, 0],
            [0, input],
            [0, 0],
        ];
        for lengths in lengths {
            let _ = self.split_command(entry, lengths);
        }
    }

    /// Every call, with numbers that are there and others that aren't.
    pub fn everything(&self, random: &mut Random) {
        let count = self.check().unwrap_or(0);
        for entry in some(random, count, ENTRIES) {
            self.entry(random, entry);
            let high = 1 << (9 + random.below(55));
            self.refused_entry(random, entry + high);
        }
        self.refused_entry(random, count);
        let wild = random.pick(&WILD);
        self.refused_entry(random, wild);

        let lines = self.bytes.split(|&byte| byte == b'\n').count() as u64;
        let high = 1 << (15 + random.below(49));
        let high = high + random.below(lines + 1);
        let wild = [1 << 32, (1 << 32) + 1, u64::MAX, high];
        for line in some(random, lines + 2, LINES).into_iter().chain(wild) {
            let _ = self.setting(line);
            let _ = self.next_setting(line);
        }

        let span = spans::near(random);
        let rooms = [(); 2].map(|_| random.below(20) as usize);
        let _ = self.merged_firings(span, rooms);
        self.normal_form_into_all();
        self.compile_into_all();
    }

    /// Every call for an entry.
    fn entry(&self, random: &mut Random, entry: u64) {
        for _ in 0..STARTS {
            let minute = samples::start(random);
            let _ = self.due(entry, minute);
            if let Ok(firing) = self.next(entry, minute) {
                assert_eq!(self.due(entry, firing), Ok(1));
                let _ = self.due(entry, firing - 1);
                let _ = self.due(entry, firing + 1);
                let _ = self.next(entry, firing);
            }
        }
        let span = spans::near(random);
        let room = random.below(20) as usize;
        let _ = self.firings(entry, span, room);
        let _ = self.user_column(entry);
        let _ = self.place(entry);
        let _ = self.stdin_length(entry);
        self.split_into_all(entry);
    }

    /// Every call for an entry that isn't there. A minute off the calendar and short buffers don't count.
    fn refused_entry(&self, random: &mut Random, entry: u64) {
        let minute = samples::start(random);
        assert!(self.due(entry, minute).is_err());
        assert!(self.next(entry, minute).is_err());
        assert!(self.firings(entry, [minute, minute], 2).is_err());
        assert!(self.user_column(entry).is_err());
        assert!(self.place(entry).is_err());
        assert!(self.stdin_length(entry).is_err());
        assert!(self.split_command(entry, [20, 20]).is_err());
        assert!(self.split_command(entry, [0, 0]).is_err());
    }

    /// The library's answer, which must be the expected one.
    fn agree<T: PartialEq + std::fmt::Debug>(
        &self,
        what: impl std::fmt::Debug,
        library: T,
        expected: T,
    ) -> T {
        assert!(
            library == expected,
            "{what:?} of {}: library {library:?}, reference program {expected:?}",
            self.shown()
        );
        library
    }

    fn table(&self) -> Table<'_> {
        Table::of(&self.lent).under(self.numbers)
    }

    fn shown(&self) -> String {
        const MOST: usize = 2_000;
        let start = &self.bytes[..self.bytes.len().min(MOST)];
        format!(
            "the table \"{}\" ({} bytes, {:?})",
            start.escape_ascii(),
            self.bytes.len(),
            self.numbers
        )
    }
}

/// All numbers below a count, or so many of them if there are more.
fn some(random: &mut Random, count: u64, most: u64) -> Vec<u64> {
    if count <= most {
        return (0..count).collect();
    }
    let middle = (2..most).map(|_| random.below(count));
    [0, count - 1].into_iter().chain(middle).collect()
}
