//! The matcher of the port beside the Rust's.

pub mod bench;
pub mod case;
pub mod cases;
pub mod check;
pub mod list;
mod ours;
mod theirs;
