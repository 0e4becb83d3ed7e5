//! The engine of the port beside the Rust's: whole sessions, refusals, states made by a caller,
//! altered indexes, states kept and restored, the store on record.

mod altered;
pub mod bench;
pub mod both;
pub mod check;
mod generate;
mod kinds;
pub mod list;
mod made;
pub mod marks;
#[cfg(feature = "mutants")]
pub mod mutants;
mod ours;
mod places;
mod readable;
mod reading;
mod refusals;
pub mod session;
pub mod stores;
mod theirs;
mod words;
