//! Generated sessions of both sides, in step.

use super::both::{Both, Opened};
use super::kinds::{Counts, Kind};
use super::ours::COMPUTED;
use super::places::Steps;
use super::readable;
use super::session::Session;
use super::theirs::Seen;
use super::{altered, generate, made, marks, refusals};
use crate::compare::Effort;
use sonalign::types::Snapshot;
use std::sync::atomic::{AtomicU64, Ordering::Relaxed};

const PRINTED: u64 = 20;

pub const QUICK_SESSIONS: u64 = 6_144;

struct Tally {
    counts: Counts,
    steps: Steps,
    submissions: AtomicU64,
    differences: AtomicU64,
}

pub fn check(effort: Effort) -> bool {
    let parts = [
        sessions(effort),
        refusals::check(),
        made::check(effort),
        altered::check(effort),
        marks::check(effort),
    ];
    parts.into_iter().all(|same| same)
}

fn sessions(effort: Effort) -> bool {
    let count = effort.pick(QUICK_SESSIONS, 49_152);
    let tally = Tally {
        counts: Counts::new(),
        steps: Steps::new(),
        submissions: AtomicU64::new(0),
        differences: AtomicU64::new(0),
    };
    effort.each("engine", count, |number| {
        compare(number, &generate::session(number), &tally);
    });
    let (submissions, differences) = (
        tally.submissions.into_inner(),
        tally.differences.into_inner(),
    );
    println!(
        "engine        {count} sessions, {submissions} submissions, {differences} differences"
    );
    let reached = tally.counts.told() & tally.steps.told();
    differences == 0 && reached && submissions > 0
}

fn compare(number: u64, session: &Session, tally: &Tally) {
    let differs = |submission: usize, what: &str| {
        if tally.differences.fetch_add(1, Relaxed) < PRINTED {
            println!(
                "engine session {number} ({}), submission {submission}: {what}",
                session.family
            );
        }
    };
    let mut both = match Both::open(&session.opening, tail(number)) {
        Ok(Opened::Opened(both)) => both,
        Ok(Opened::Refused(code)) => {
            tally.counts.note_refused_opening(code);
            return;
        }
        Err(what) => return differs(0, &what),
    };
    if !both.theirs.is_indexed() {
        tally.counts.add(Kind::OpenedWithoutIndex);
    }
    let mut computed: Option<Snapshot> = None;
    for (at, submission) in session.submissions.iter().enumerate() {
        let seen = match both.submit(submission) {
            Ok(seen) => seen,
            Err(what) => return differs(at + 1, &what),
        };
        tally.counts.note(&seen);
        if let Err(what) = tally.steps.note(computed.as_ref(), &seen) {
            differs(at + 1, &what);
        }
        if seen.code == COMPUTED {
            computed = seen.snapshot;
        }
        tally.submissions.fetch_add(1, Relaxed);
    }
}

/// How much longer buffers are than they need be.
fn tail(number: u64) -> usize {
    (number % 3) as usize * 5
}

/// A line for each submission of session n, both sides.
pub fn shown(number: u64) -> String {
    let session = generate::session(number);
    let mut text = readable::head(number, &session);
    let mut both = match Both::open(&session.opening, tail(number)) {
        Ok(Opened::Opened(both)) => both,
        Ok(Opened::Refused(code)) => return text + &format!("  opening refused {code} by both\n"),
        Err(what) => return text + &format!("  OPENING DIFFERS: {what}\n"),
    };
    for (at, submission) in session.submissions.iter().enumerate() {
        let answer: Result<Seen, String> = both.submit(submission);
        let stop = answer.is_err();
        text += &readable::line(at + 1, submission, &answer, &both);
        if stop {
            break;
        }
    }
    text
}
