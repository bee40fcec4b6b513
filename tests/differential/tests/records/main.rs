//! Tables as records and records as text (ticket 2026-08), against the reference program.

mod bodies;
mod damaged;
mod known;
mod later;
mod limits;
mod tables;
