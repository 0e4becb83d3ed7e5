//! Loads, which the library fills from a seed for a bench, beside those of the driver's own lines.

mod accepted;
pub mod bench;
mod called;
mod cases;
pub mod check;
pub mod generator;
mod kinds;
pub mod ours;
pub mod reading;
mod refusals;
