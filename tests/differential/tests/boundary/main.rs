//! The boundary: every function that is lent bytes, on any bytes, lengths and numbers, against the reference program. All
//! bytes are lent as `guard` has them: a call that leaves them, or writes to a table, kills this process. What a refused
//! call must leave as it was is compared byte by byte.

mod bytes;
mod every;
mod lengths;
mod limits;
mod null;
mod numbers;
mod raw;
mod rooms;
mod splitting;
mod tables;
mod writing;
