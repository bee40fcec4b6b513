//! `eremothyn compile` and `eremothyn decompile`: tables as records, and records as text.

mod compiling;
mod decompiling;
mod errors;
mod pipes;
