//! The functions of `include/eremothyn.h`, each under its own name without the prefix. No other package declares them.

mod calendar;
mod calls;
mod declared;
mod firings;
mod queue;
mod records;
mod run;
mod table;

pub use calendar::{
    date, day, hour, minute_of_date, minute_of_hour, month, weekday, year, NOT_ON_CALENDAR,
};
#[cfg(feature = "counted")]
pub use calls::calls;
pub use declared::{Numbers, Table};
pub use records::Records;
pub use reference::answer::{Answer, Filled, MORE, REFUSED};
pub use run::Run;
