//! glibc's `gmtime_r` and `timegm`.

use std::ffi::{c_char, c_int, c_long};
use test_calls::dates::Parts;

/// A minute's date as glibc gives it.
pub fn broken_down(minute: u64) -> Tm {
    let mut tm = Tm::ZERO;
    let seconds = minute as i64 * 60;
    // SAFETY: both pointers are to live values of glibc's types.
    let answer = unsafe { gmtime_r(&seconds, &mut tm) };
    assert!(!answer.is_null());
    tm
}

pub fn date(minute: u64) -> Parts {
    let tm = broken_down(minute);
    [
        tm.tm_year + 1900,
        tm.tm_mon + 1,
        tm.tm_mday,
        tm.tm_hour,
        tm.tm_min,
        tm.tm_wday,
    ]
    .map(|part| part as u64)
}

pub fn minute([year, month, day, hour, minute, _]: Parts) -> u64 {
    let mut tm = Tm {
        tm_year: year as c_int - 1900,
        tm_mon: month as c_int - 1,
        tm_mday: day as c_int,
        tm_hour: hour as c_int,
        tm_min: minute as c_int,
        ..Tm::ZERO
    };
    // SAFETY: the pointer is to a live value of glibc's type.
    let seconds = unsafe { timegm(&mut tm) };
    seconds as u64 / 60
}

/// `struct tm` of glibc.
#[repr(C)]
pub struct Tm {
    tm_sec: c_int,
    tm_min: c_int,
    tm_hour: c_int,
    tm_mday: c_int,
    tm_mon: c_int,
    tm_year: c_int,
    tm_wday: c_int,
    tm_yday: c_int,
    tm_isdst: c_int,
    tm_gmtoff: c_long,
    tm_zone: *const c_char,
}

impl Tm {
    const ZERO: Tm = Tm {
        tm_sec: 0,
        tm_min: 0,
        tm_hour: 0,
        tm_mday: 0,
        tm_mon: 0,
        tm_year: 0,
        tm_wday: 0,
        tm_yday: 0,
        tm_isdst: 0,
        tm_gmtoff: 0,
        tm_zone: std::ptr::null(),
    };
}

// `time_t` is an i64 on the 64-bit machines that glibc knows.
extern "C" {
    fn gmtime_r(time: *const i64, result: *mut Tm) -> *mut Tm;
    fn timegm(tm: *mut Tm) -> i64;
}
