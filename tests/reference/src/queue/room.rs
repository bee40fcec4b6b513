//! A line in lent bytes, which the papers leave free: a format number, the mark as its minute and 1, or 0 for none, 32 bits
//! each; then a count and the entry numbers, 16 bits each. The low byte is the first.

use super::Queue;
use crate::calendar::LAST_MINUTE;

/// The format number: the bytes that a line starts with.
pub const FORMAT: [u8; 4] = *b"ERQ1";

/// Where the mark, the count and the entry numbers start.
pub const MARK: usize = 4;
pub const COUNT: usize = 8;
pub const NUMBERS: usize = 10;

/// The bytes that a line of so many entries may take.
pub fn size(entries: usize) -> usize {
    NUMBERS + 2 * entries
}

impl Queue {
    /// The line in a room, if that is one for so many entries.
    pub fn in_room(room: &[u8], entries: usize) -> Option<Queue> {
        let line = room.get(..size(entries))?;
        let (format, rest) = line.split_at(MARK);
        let (mark, rest) = rest.split_at(COUNT - MARK);
        let mark = number(mark);
        let mut numbers = rest.chunks(2).map(number);
        let count = numbers.next()? as usize;
        let waiting: Vec<u64> = numbers.take(count).collect();
        let is_new = |at: usize| !waiting[..at].contains(&waiting[at]);
        let is_queue = format == FORMAT
            && mark <= LAST_MINUTE + 1
            && waiting.len() == count
            && waiting.iter().all(|&entry| entry < entries as u64)
            && (0..count).all(is_new);
        is_queue.then_some(Queue {
            waiting,
            mark: mark.checked_sub(1),
        })
    }

    /// Lays the line to the front of a room. The bytes behind it stay.
    pub fn lay(&self, room: &mut [u8]) {
        let bytes = self.bytes();
        room[..bytes.len()].copy_from_slice(&bytes);
    }

    fn bytes(&self) -> Vec<u8> {
        let mark = self.mark.map_or(0, |minute| minute + 1) as u32;
        let count = self.waiting.len() as u64;
        let numbers = [count].into_iter().chain(self.waiting.iter().copied());
        let numbers = numbers.flat_map(|number| (number as u16).to_le_bytes());
        let front = FORMAT.into_iter().chain(mark.to_le_bytes());
        front.chain(numbers).collect()
    }
}

/// The number in some bytes, the low one first.
fn number(bytes: &[u8]) -> u64 {
    let high_first = bytes.iter().rev();
    high_first.fold(0, |number, &byte| 256 * number + u64::from(byte))
}
