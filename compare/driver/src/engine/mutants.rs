//! Whether the sessions tell the Rust with one place changed from the port: what they would not
//! tell, they would not tell of the port either.

use super::both::{Both, Opened};
use super::{generate, made};
use crate::compare::Effort;
use mutants::{Mutant, MUTANTS};
use sonalign::running::{self, Open};
use std::fmt::Write;
use std::panic::{self, AssertUnwindSafe};
use std::sync::Mutex;

const HEAD: &str = "\
| place changed | file | told by | difference |
|---|---|---|---|
";

/// What tells a mutant: where, and what differs.
type Told = Option<(String, String)>;

/// The table of those whose name has the words given, and whether all are told but those that
/// nothing can tell.
pub fn table(effort: Effort, words: &str) -> (String, bool) {
    // A mutant may look outside its arrays: that tells it too, and needs no report.
    panic::set_hook(Box::new(|_| {}));
    let chosen = |mutant: &&Mutant| mutant.name.contains(words);
    let mutants: Vec<&Mutant> = MUTANTS.iter().filter(chosen).collect();
    let told: Vec<Mutex<Told>> = mutants.iter().map(|_| Mutex::new(None)).collect();
    effort.each("mutants", mutants.len() as u64, |number| {
        let open = mutants[number as usize].open;
        let found = by_sessions(open).or_else(|| by_made(open));
        if let Ok(mut told) = told[number as usize].lock() {
            *told = found;
        }
    });
    let told: Vec<Told> = told
        .into_iter()
        .map(|told| told.into_inner().unwrap_or(None))
        .collect();
    shown(&mutants, &told)
}

fn shown(mutants: &[&Mutant], told: &[Told]) -> (String, bool) {
    let mut text = String::from(HEAD);
    let (mut caught, mut as_listed) = (0, 0);
    for (mutant, told) in mutants.iter().zip(told) {
        let Mutant {
            name, file, same, ..
        } = mutant;
        let (place, what) = match (told, same) {
            (Some((place, what)), None) => (place.as_str(), what.as_str()),
            (None, Some(why)) => ("nothing can tell it", *why),
            (Some((place, _)), Some(_)) => (place.as_str(), "TOLD, THOUGH SAID TO BE THE SAME"),
            (None, None) => ("NOT CAUGHT", ""),
        };
        caught += usize::from(told.is_some());
        as_listed += usize::from(told.is_some() == same.is_none());
        let _ = writeln!(text, "| {name} | {file} | {place} | {what} |");
    }
    let count = mutants.len();
    let _ = writeln!(text, "\n{caught} of {count} told, {as_listed} as listed");
    // Words that no name has choose nothing, which shows nothing.
    (text, count > 0 && as_listed == count)
}

fn by_sessions(open: Open) -> Told {
    (0..super::check::QUICK_SESSIONS).find_map(|number| {
        let run = || session(number, open);
        let (submission, what) = caught(run)?;
        Some((format!("session {number}, submission {submission}"), what))
    })
}

fn by_made(open: Open) -> Told {
    (0..made::QUICK_STATES).find_map(|number| {
        let run = || made::run_with(open, number).map_err(|what| (0, what));
        let (_, what) = caught(run)?;
        // A state that tells the Rust itself from the port says nothing of the mutant.
        let plain = made::run_with(running::open, number);
        plain
            .is_ok()
            .then(|| (format!("made state {number}"), what))
    })
}

fn session(number: u64, open: Open) -> Result<(), (usize, String)> {
    let session = generate::session(number);
    let opened = Both::open_with(open, &session.opening, 0).map_err(|what| (0, what))?;
    let Opened::Opened(mut both) = opened else {
        return Ok(());
    };
    for (at, submission) in session.submissions.iter().enumerate() {
        both.submit(submission).map_err(|what| (at + 1, what))?;
    }
    Ok(())
}

fn caught(run: impl FnOnce() -> Result<(), (usize, String)>) -> Option<(usize, String)> {
    match panic::catch_unwind(AssertUnwindSafe(run)) {
        Ok(came) => came.err(),
        Err(_) => Some((0, "it panics".into())),
    }
}
