//! The last words of a process that dies by SIGSEGV: the read-only bytes that its thread made last, which are the table
//! that a call was lent. A test that dies shows nothing else.

use std::ascii::escape_default;
use std::cell::Cell;
use std::ffi::{c_int, c_void};
use std::sync::Once;
use std::{ptr, slice};

const SIGSEGV: c_int = 11;
const STANDARD_ERROR: c_int = 2;

thread_local! {
    static LAST: Cell<(*const u8, usize)> = const { Cell::new((ptr::null(), 0)) };
}

/// Makes these the thread's last words.
pub fn announce(bytes: &[u8]) {
    static ONCE: Once = Once::new();
    // SAFETY: the handler only does what a handler may.
    ONCE.call_once(|| unsafe {
        signal(SIGSEGV, speak as *const () as usize);
    });
    LAST.set((bytes.as_ptr(), bytes.len()));
}

extern "C" fn speak(_: c_int) {
    const DEFAULT: usize = 0;
    // SAFETY: first of all, back to the default: the process dies where this returns, and if this goes wrong.
    unsafe { signal(SIGSEGV, DEFAULT) };
    let (start, length) = LAST.get();
    say(b"SIGSEGV: a call left the bytes that it was lent, or wrote to this table: \"");
    if !start.is_null() {
        // SAFETY: the last bytes are still mapped, or else the process dies here.
        for &byte in unsafe { slice::from_raw_parts(start, length) } {
            escape_default(byte).for_each(|part| say(&[part]));
        }
    }
    say(b"\"\n");
}

fn say(text: &[u8]) {
    // SAFETY: the text has so many bytes.
    let _ = unsafe { write(STANDARD_ERROR, text.as_ptr().cast(), text.len()) };
}

unsafe extern "C" {
    fn signal(number: c_int, handler: usize) -> usize;
    fn write(file: c_int, bytes: *const c_void, length: usize) -> isize;
}
