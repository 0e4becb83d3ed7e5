//! Named places: states are kept and restored in the midst of generated sessions, beside clones of
//! the Rust's engine, and out of stores that hold anything.

mod faults;
mod foreign;
mod kinds;
mod store;
mod walk;

use super::{generate, readable};
use crate::compare::Effort;
use kinds::Counts;
use std::sync::atomic::{AtomicU64, Ordering::Relaxed};
use walk::Walk;

const PRINTED: u64 = 20;

struct Tally {
    counts: Counts,
    calls: AtomicU64,
    submissions: AtomicU64,
    differences: AtomicU64,
}

impl Tally {
    fn new() -> Self {
        Self {
            counts: Counts::new(),
            calls: AtomicU64::new(0),
            submissions: AtomicU64::new(0),
            differences: AtomicU64::new(0),
        }
    }

    fn add(&self, calls: u64, submissions: u64) {
        self.calls.fetch_add(calls, Relaxed);
        self.submissions.fetch_add(submissions, Relaxed);
    }

    fn differs(&self, what: &str) {
        if self.differences.fetch_add(1, Relaxed) < PRINTED {
            println!("{what}");
        }
    }
}

pub fn check(effort: Effort) -> bool {
    let sessions = effort.pick(552, 13_800);
    let tally = Tally::new();
    effort.each("named places", sessions, |number| session(number, &tally));
    let stores = effort.pick(200, 8_000);
    effort.each("foreign stores", stores, |number| foreign(number, &tally));
    let read = |count: &AtomicU64| count.load(Relaxed);
    let (calls, submissions) = (read(&tally.calls), read(&tally.submissions));
    let differences = read(&tally.differences);
    println!(
        "named places  {sessions} sessions, {calls} calls, {submissions} submissions, {differences} differences"
    );
    tally.counts.told() && differences == 0
}

fn foreign(number: u64, tally: &Tally) {
    match foreign::run(number, &tally.counts) {
        Ok((calls, submissions)) => tally.add(calls, submissions),
        Err(what) => tally.differs(&format!("named places, foreign store {number}: {what}")),
    }
}

/// Of the generated sessions all but the large, whose clones would take long.
fn session(number: u64, tally: &Tally) {
    let number = number / 23 * 24 + number % 23;
    let session = generate::session(number);
    let differs = |next: usize, what: &str| {
        let family = session.family;
        let line = format!("named places, session {number} ({family}), at submission {next}: ");
        tally.differs(&(line + what));
    };
    match Walk::new(number, &session, &tally.counts) {
        Ok(Some(mut walk)) => {
            let came = walk.run();
            tally.add(walk.calls, walk.submissions);
            if let Err(what) = came {
                differs(walk.next + 1, &what);
            }
        }
        Ok(None) => {}
        Err(what) => differs(0, &what),
    }
}

/// A line for each call and each submission of session n.
pub fn shown(number: u64) -> String {
    let session = generate::session(number);
    let text = readable::head(number, &session);
    let counts = Counts::new();
    let mut walk = match Walk::new(number, &session, &counts) {
        Ok(Some(walk)) => walk,
        Ok(None) => return text + "  opening refused by both\n",
        Err(what) => return text + &format!("  OPENING DIFFERS: {what}\n"),
    };
    walk.lines = Some(text);
    let came = walk.run();
    let text = walk.lines.unwrap_or_default();
    match came {
        Ok(()) => text,
        Err(what) => text + &format!("  DIFFERS: {what}\n"),
    }
}

#[cfg(test)]
mod tests {
    use super::*;

    #[test]
    fn what_a_session_comes_to_is_counted() {
        let tally = Tally::new();
        session(3, &tally);
        foreign(3, &tally);
        assert_eq!(tally.differences.load(Relaxed), 0);
        assert!(tally.calls.load(Relaxed) > 0);
        assert!(!tally.counts.told(), "little is reached");
    }

    #[test]
    fn keeps_and_restores_are_shown() {
        let lines = shown(3);
        assert!(lines.contains("\n  keep under 6\n"));
        assert!(lines.contains("\n  restore 8\n"));
        assert!(!lines.contains("DIFFERS"));
    }
}
