//! Each limit of document 01's two lists from both sides, and every pair of faults together, so that
//! the order shows. What a call is refused with is the driver's own reading of the document; nothing
//! that was lent may be changed by it.

mod faults;
mod lengths;
mod openings;
mod short;
mod submissions;

use super::ours::{COMPUTED, NO_AGE, REREAD};
use crate::reached;
use lengths::lengths;
use openings::openings;
use short::short_words;
use submissions::submissions;

const PRINTED: u64 = 20;

/// Buffers are never longer than this, also where a count asks for more than there is.
const MOST: usize = 200_000;

pub fn check() -> bool {
    let mut tally = Tally::default();
    lengths(&mut tally);
    openings(&mut tally);
    submissions(&mut tally);
    short_words(&mut tally);
    println!("refusals      {} differences", tally.differences);
    let reached = reached::told(&[
        ("calls", tally.calls),
        ("refused", tally.refused),
        ("passed at a limit", tally.passed),
        ("pairs of faults", tally.pairs),
    ]);
    tally.differences == 0 && reached
}

#[derive(Default)]
struct Tally {
    calls: u64,
    refused: u64,
    passed: u64,
    pairs: u64,
    differences: u64,
}

impl Tally {
    /// Notes a call that was to be answered with `expected`.
    fn note(&mut self, what: &str, expected: u32, came: Result<u32, String>) {
        self.calls += 1;
        match came {
            Ok(code) if code == expected => match code {
                COMPUTED | REREAD | NO_AGE => self.passed += 1,
                _ => self.refused += 1,
            },
            Ok(code) => self.differs(&format!("{what}: answer {code}, not {expected}")),
            Err(error) => self.differs(&format!("{what}: {error}")),
        }
    }

    fn differs(&mut self, what: &str) {
        self.differences += 1;
        if self.differences <= PRINTED {
            println!("refusals: {what}");
        }
    }
}
