//! The calendar's functions, each answer compared with the reference program's. Dates are rows of year, month, day, hour and
//! minute.

use eremothyn::{Answer, NOT_ON_CALENDAR};
use guard::Guarded;
use reference::calendar::{self, Date};

const PARTS: [fn(u64) -> Answer; 6] = [
    eremothyn::year,
    eremothyn::month,
    eremothyn::day,
    eremothyn::hour,
    eremothyn::minute_of_hour,
    eremothyn::weekday,
];

/// The six answers that are right for a date, in the order of `PARTS`.
pub fn answers(date: Date) -> [Answer; 6] {
    date.parts().map(Ok)
}

/// The library's six answers for a minute, compared with the reference program's.
pub fn parts(minute: u64) -> [Answer; 6] {
    let library = PARTS.map(|part| part(minute));
    let second = calendar::date_of(minute).map_or([Err(NOT_ON_CALENDAR); 6], answers);
    assert_eq!(
        library, second,
        "minute {minute}: library, reference program"
    );
    library
}

/// The library's date of a minute in a run of so many numbers, each of which is compared. Where it answers, the six calls do.
pub fn date(minute: u64, length: usize) -> Answer {
    let before: Vec<u16> = (0..length).map(|at| !(at as u16 % 1_000)).collect();
    let [mut library, mut second] = [before.clone(), before];
    let answer = Guarded::lend_numbers(&mut library, |run| eremothyn::date(minute, run));
    let expected = calendar::date_into(minute, &mut second);
    assert_eq!(
        (answer, &library),
        (expected, &second),
        "minute {minute} into {length}: library, reference program"
    );
    if answer.is_ok() {
        let six: Vec<Answer> = library[..6].iter().map(|&part| Ok(part.into())).collect();
        assert_eq!(parts(minute)[..], six);
    }
    answer
}

/// The library's minute of a date, compared with the reference program's.
pub fn minute_of(date: [u64; 5]) -> Answer {
    let [year, month, day, hour, minute] = date;
    let library = eremothyn::minute_of_date(year, month, day, hour, minute);
    let second = calendar::minute_of(year, month, day, hour, minute).ok_or(NOT_ON_CALENDAR);
    assert_eq!(library, second, "{date:?}: library, reference program");
    library
}
