//! Engines of the comparison build with one place of engine.rs or matcher.rs changed. build.rs
//! writes a module for each, so that one build serves all.

use sonalign::running::Open;

pub struct Mutant {
    pub name: &'static str,
    pub file: &'static str,
    /// Why no input tells it from the Rust, where none does.
    pub same: Option<&'static str>,
    pub open: Open,
}

include!(concat!(env!("OUT_DIR"), "/mutants.rs"));
