//! The run queue.

use crate::{Run, Table};
use reference::answer::{from_c, some_from_c, Answer};

impl Table<'_> {
    /// Lays a fresh line into the room, and answers how many wait.
    pub fn queue_init<'r>(self, room: impl Into<Run<'r>>) -> Answer {
        let room = room.into();
        from_c(unsafe { self.eremothyn_queue_init(room.start, room.length) })
    }

    /// Announces a minute, and answers how many joined.
    pub fn queue_tick<'r>(self, room: impl Into<Run<'r>>, minute: u64) -> Answer {
        let room = room.into();
        from_c(unsafe { self.eremothyn_queue_tick(room.start, room.length, minute) })
    }

    /// Requests an entry; none is "nothing waits".
    pub fn queue_pop<'r>(self, room: impl Into<Run<'r>>) -> Result<Option<u64>, u64> {
        let room = room.into();
        some_from_c(unsafe { self.eremothyn_queue_pop(room.start, room.length) })
    }

    /// Who stands at a place; none is "nothing waits". The room is only read.
    pub fn queue_entry<'r>(self, room: impl Into<Run<'r>>, place: u64) -> Result<Option<u64>, u64> {
        let room = room.into();
        some_from_c(unsafe { self.eremothyn_queue_entry(room.start, room.length, place) })
    }

    /// Goes on with a new table under this one's numbers, and answers how many wait.
    pub fn queue_reload<'r>(self, new: Table, room: impl Into<Run<'r>>) -> Answer {
        let room = room.into();
        from_c(unsafe { self.eremothyn_queue_reload(new, room.start, room.length) })
    }
}
