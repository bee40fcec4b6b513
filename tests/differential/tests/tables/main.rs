//! The calls that say what a table means, against the reference program.

mod commands;
mod cuts;
mod fields;
mod known;
mod normal;
mod places;
mod random;
mod refusals;
mod settings;
mod users;
