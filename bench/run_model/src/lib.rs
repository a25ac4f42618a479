//! A reference model of a serial memory part, written from its rules in plain Rust.
//!
//! A part is a dialect (how it speaks) above a cell array (what it remembers). [`machine::Part`] has its six calls. [`run_file`]
//! plays recorded sessions on a part and prints a line for each record.

pub mod address;
pub mod bench;
mod bytes;
pub mod cells;
pub mod compare;
pub mod dense;
pub mod dialect;
pub mod digest;
mod direct;
pub mod machine;
pub mod make;
pub mod memory;
mod paged;
pub mod refusal;
mod release;
pub mod run_file;
mod secure;
mod selection;
pub mod sum;
pub mod tally;
pub mod watch;
