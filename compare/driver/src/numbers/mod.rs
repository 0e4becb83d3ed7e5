//! The number functions, each by itself: sessions barely see them.

pub mod bench;
pub mod check;
mod edges;
mod inputs;
pub mod list;
mod ours;
mod roots;
mod rows;
pub mod samples;
mod ties;
