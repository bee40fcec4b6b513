//! A table, and a line of it in one buffer, beside the reference program's list. Each call is lent a copy of the buffer's
//! first bytes, as many as the caller likes, and every byte of the buffer is compared after it. The lent bytes end at guard
//! pages, and the table's are read-only.

use eremothyn::{Answer, Numbers, Run, Table};
use guard::{filled, Guarded};
use reference::queue::{room, Queue};
use reference::table::{self, read, Kind, Rules};
use std::fmt::Debug;

/// Refusal: not a waiting line of this table, or too little room for one.
const NO_LINE: u64 = 28;

/// A good table.
pub struct Case<'a> {
    bytes: &'a [u8],
    lent: Guarded,
    numbers: Numbers,
    pub table: table::Table<'a>,
    /// The least room that the library takes for a line of the table.
    pub least: usize,
}

impl<'a> Case<'a> {
    /// A user table in the first dialect.
    pub fn of(bytes: &'a [u8]) -> Case<'a> {
        Case::under(bytes, Kind::User)
    }

    /// A table under any numbers.
    pub fn under(bytes: &'a [u8], numbers: impl Into<Numbers>) -> Case<'a> {
        let numbers = numbers.into();
        let table = read(bytes, numbers.rules()).expect("a good table");
        let lent = Guarded::read_only(bytes);
        let least = least_room(Table::of(&lent).under(numbers), table.entries.len());
        assert_eq!(least, room::size(table.entries.len()));
        Case {
            bytes,
            lent,
            numbers,
            table,
            least,
        }
    }

    pub fn rules(&self) -> Rules {
        self.numbers.rules()
    }

    pub fn count(&self) -> usize {
        self.table.entries.len()
    }

    /// The next firing of an entry, by the reference program.
    pub fn next(&self, entry: u64, minute: u64) -> Answer {
        self.table.entries[entry as usize].next_after(minute)
    }

    /// As much room as is always enough.
    pub fn enough(&self) -> usize {
        8 * self.count() + 64
    }

    /// Who stands at a place of a room, which is lent read-only.
    fn entry(&self, room: &[u8], place: u64) -> Result<Option<u64>, u64> {
        let room = Guarded::read_only(room);
        // SAFETY: the call only reads it; one that wrote would die.
        let run = unsafe { Run::at(room.as_ptr().cast_mut(), room.len() as u64) };
        let table = Table::of(&self.lent).under(self.numbers);
        table.queue_entry(run, place)
    }

    /// A call that is lent the table and a room.
    fn ask<T>(&self, room: &mut [u8], call: impl FnOnce(Table, &mut [u8]) -> T) -> T {
        let table = Table::of(&self.lent).under(self.numbers);
        Guarded::lend(room, |room| call(table, room))
    }
}

/// The least room that a fresh line is accepted in. What is refused changes no byte.
fn least_room(table: Table, entries: usize) -> usize {
    let most = 8 * entries + 64;
    let accepted = |length: &usize| {
        let mut room = filled(*length);
        let answer = Guarded::lend(&mut room, |room| table.queue_init(room));
        if answer.is_err() {
            assert_eq!(answer, Err(NO_LINE), "a room of {length} bytes");
            assert_eq!(room, filled(*length));
        }
        answer.is_ok()
    };
    let least = (0..=most).find(accepted);
    least.unwrap_or_else(|| panic!("{most} bytes aren't enough for {entries} entries"))
}

/// The library's line and the reference program's.
pub struct Compared {
    pub room: Vec<u8>,
    pub queue: Queue,
}

impl Compared {
    /// A fresh line in a buffer of so many bytes.
    pub fn fresh(case: &Case, length: usize) -> Compared {
        let mut compared = Compared {
            room: filled(length),
            queue: Queue::default(),
        };
        let _ = compared.init(case, length);
        compared
    }

    pub fn init(&mut self, case: &Case, lent: usize) -> Answer {
        let second = |queue: &mut Queue| {
            *queue = Queue::fresh(&case.table);
            Ok(queue.waiting.len() as u64)
        };
        let call = |table: Table, room: &mut [u8]| table.queue_init(room);
        self.call(case, lent, "init", call, second)
    }

    pub fn tick(&mut self, case: &Case, lent: usize, minute: u64) -> Answer {
        let call = |table: Table, room: &mut [u8]| table.queue_tick(room, minute);
        let second = |queue: &mut Queue| queue.tick(&case.table, minute);
        self.call(case, lent, ("tick", minute), call, second)
    }

    pub fn pop(&mut self, case: &Case, lent: usize) -> Result<Option<u64>, u64> {
        let second = |queue: &mut Queue| queue.pop(&case.table);
        self.call(case, lent, "pop", pop, second)
    }

    /// A room that is no line of the old table: 28, and no byte changes.
    pub fn refuses_reload(&self, old: &Case, new: &Case) {
        let mut after = self.room.clone();
        let answer = old.ask(&mut after, |table, room| {
            table.queue_reload(Table::of(&new.lent).under(new.numbers), room)
        });
        assert_eq!((answer, after), (Err(NO_LINE), self.room.clone()));
    }

    /// Who stands at a place. The room is lent read-only.
    pub fn entry(&self, case: &Case, lent: usize, place: u64) -> Result<Option<u64>, u64> {
        let expected = match lent < case.least {
            true => Err(NO_LINE),
            false => self.queue.entry(&case.table, place),
        };
        let answer = case.entry(&self.room[..lent], place);
        assert_eq!(
            answer, expected,
            "entry {place} of {:?}: library, reference program",
            self.queue
        );
        answer
    }

    /// Goes on with a new table, under the old one's numbers.
    pub fn reload(&mut self, old: &Case, new: &Case, lent: usize) -> Answer {
        assert_eq!(old.numbers.rules(), new.numbers.rules());
        let call = |table: Table, room: &mut [u8]| {
            let new = Table::of(&new.lent).under(new.numbers);
            table.queue_reload(new, room)
        };
        let second = |queue: &mut Queue| match lent < new.least {
            true => Err(NO_LINE),
            false => queue.reload(&old.table, &new.table),
        };
        let what = format!("reload with \"{}\"", new.bytes.escape_ascii());
        self.call(old, lent, what, call, second)
    }

    /// A call of both. Then the buffer has the reference program's line at its front, or is as it was where that refuses.
    fn call<T: PartialEq + Debug>(
        &mut self,
        case: &Case,
        lent: usize,
        what: impl Debug,
        library: impl FnOnce(Table, &mut [u8]) -> Result<T, u64>,
        second: impl FnOnce(&mut Queue) -> Result<T, u64>,
    ) -> Result<T, u64> {
        let before = self.queue.clone();
        let expected = if lent < case.least {
            Err(NO_LINE)
        } else {
            second(&mut self.queue)
        };
        let mut room = self.room.clone();
        if expected.is_ok() {
            self.queue.lay(&mut room[..lent]);
        }
        let answer = case.ask(&mut self.room[..lent], library);
        assert_eq!(
            (&answer, &self.room),
            (&expected, &room),
            "{what:?} in {lent} bytes of room, {before:?}, of \"{}\" ({:?}): library, reference program",
            case.bytes.escape_ascii(),
            case.numbers
        );
        answer
    }

    /// Requests until nothing waits, on a copy of the line, and compares what is named.
    pub fn assert_waiting(&self, case: &Case) {
        let drained = drain(case, &self.room).expect("a line");
        assert_eq!(drained, self.queue.waiting);
        // Who stands where, of a long line only at its ends.
        let end = drained.len() as u64;
        for place in (0..end + 2).filter(|place| *place < 8 || place + 2 > end) {
            let named = drained.get(place as usize).copied();
            assert_eq!(self.entry(case, self.room.len(), place), Ok(named));
        }
        assert_eq!(self.entry(case, self.room.len(), u64::MAX), Ok(None));
    }
}

fn pop(table: Table, room: &mut [u8]) -> Result<Option<u64>, u64> {
    table.queue_pop(room)
}

/// What waits in a room, named by requests on a copy of it.
pub fn drain(case: &Case, room: &[u8]) -> Result<Vec<u64>, u64> {
    let mut room = room.to_vec();
    let mut waiting = Vec::new();
    while let Some(entry) = case.ask(&mut room, pop)? {
        waiting.push(entry);
        assert!(waiting.len() <= case.count(), "{waiting:?} wait");
    }
    // Nothing waits, and asking again changes nothing.
    let before = room.clone();
    assert_eq!(case.ask(&mut room, pop), Ok(None));
    assert_eq!(room, before);
    Ok(waiting)
}

/// Every call with a bad table: the table's refusal, whatever room and minute are, and no byte of the room changes.
pub fn refused(table: &[u8], numbers: impl Into<Numbers>, number: u64, room: &[u8], minute: u64) {
    let lent = Guarded::read_only(table);
    let refused = |refusal: &dyn Fn(&mut [u8]) -> Option<u64>| {
        let mut after = room.to_vec();
        let shown = table.escape_ascii();
        assert_eq!(Guarded::lend(&mut after, refusal), Some(number), "{shown}");
        assert_eq!(after, room, "{shown}");
    };
    let numbers = numbers.into();
    let lent = Table::of(&lent).under(numbers);
    refused(&|room| lent.queue_init(room).err());
    refused(&|room| lent.queue_tick(room, minute).err());
    refused(&|room| lent.queue_pop(room).err());
    refused(&|room| lent.queue_entry(room, minute).err());
    refused(&|room| lent.queue_reload(Table::of(b""), room).err());
    refused(&|room| lent.queue_reload(lent, room).err());
    refused(&|room| Table::of(b"").under(numbers).queue_reload(lent, room).err());
}

/// A room with any bytes: no line, or else some line, and then every call does the same with it. Whether it was a line.
pub fn judge(case: &Case, room: &[u8], minute: u64) -> bool {
    const OFF_CALENDAR: u64 = u64::MAX;
    let lent = room.len();
    let line = |queue: Queue| Compared {
        room: room.to_vec(),
        queue,
    };
    let Some(queue) = Queue::in_room(room, case.count()) else {
        refuses(case, room, &[minute, OFF_CALENDAR]);
        return false;
    };
    assert_eq!(line(queue.clone()).tick(case, lent, OFF_CALENDAR), Err(14));
    let _ = line(queue.clone()).pop(case, lent);
    let before = line(queue.clone());
    let _ = before.entry(case, lent, minute % (case.count() as u64 + 2));
    let mut same = line(queue.clone());
    assert_eq!(
        same.reload(case, case, lent),
        Ok(queue.waiting.len() as u64)
    );
    assert_eq!(same.room, room);
    let mut ticked = line(queue);
    let _ = ticked.tick(case, lent, minute);
    ticked.assert_waiting(case);
    true
}

/// A room that is no line: a request and announcements of these minutes are refused, and no byte of it changes.
pub fn refuses(case: &Case, room: &[u8], minutes: &[u64]) {
    let mut after = room.to_vec();
    assert_eq!(case.ask(&mut after, pop), Err(NO_LINE));
    let reload = |table: Table, room: &mut [u8]| table.queue_reload(table, room);
    assert_eq!(case.ask(&mut after, reload), Err(NO_LINE));
    for place in [0, 1, u64::MAX] {
        assert_eq!(case.entry(room, place), Err(NO_LINE), "{place}");
    }
    for &minute in minutes {
        let tick = |table: Table, room: &mut [u8]| table.queue_tick(room, minute);
        assert_eq!(case.ask(&mut after, tick), Err(NO_LINE), "{minute}");
    }
    assert_eq!(after, room);
}
