//! An index that somebody altered: every call ends, refuses as it should, and lists at most eight
//! candidates. The rest of an answer is free; how often it is the Rust's all the same is counted.

use super::both::{Both, Opened};
use super::generate;
use super::ours::{self, COMPUTED, REREAD};
use super::reading;
use super::words::{self, place, MOST_CANDIDATES};
use crate::compare::Effort;
use crate::family::pattern;
use crate::random::Random;
use crate::reached;
use sonalign::running::{Kept, Rows};
use std::sync::atomic::{AtomicU64, Ordering::Relaxed};

const PRINTED: u64 = 20;

#[derive(Default)]
struct Tally {
    submissions: AtomicU64,
    altered: AtomicU64,
    searched: AtomicU64,
    refused: AtomicU64,
    as_the_rust: AtomicU64,
    differences: AtomicU64,
}

pub fn check(effort: Effort) -> bool {
    let tally = Tally::default();
    effort.each("altered index", effort.pick(250, 6_000), |number| {
        if let Err(what) = run(number, &tally) {
            if tally.differences.fetch_add(1, Relaxed) < PRINTED {
                println!("altered index {number}: {what}");
            }
        }
    });
    let read = |count: &AtomicU64| count.load(Relaxed);
    let differences = read(&tally.differences);
    println!("altered index {differences} differences");
    let reached = reached::told(&[
        ("submissions", read(&tally.submissions)),
        ("computed", read(&tally.searched)),
        ("refused", read(&tally.refused)),
        ("indexes altered", read(&tally.altered)),
        (
            "answers and states as the Rust's over the same index",
            read(&tally.as_the_rust),
        ),
    ]);
    differences == 0 && reached
}

/// A session over an altered index.
fn run(number: u64, tally: &Tally) -> Result<(), String> {
    let mut random = Random::new(pattern(number ^ 0xa17e_4ed0));
    let family = random.below(21) as u64;
    let session = generate::session(random.below(2_000) as u64 * 24 + family);
    let Opened::Opened(mut both) = Both::open(&session.opening, 2)? else {
        return Ok(());
    };
    for submission in &session.submissions {
        if random.one_in(4) {
            alter(&mut random, &mut both);
            tally.altered.fetch_add(1, Relaxed);
        }
        step(&mut both, submission, tally)?;
    }
    Ok(())
}

/// The same index for both: what each part holds, and what stands in it now.
fn alter(random: &mut Random, both: &mut Both) {
    let mut index = both.ours.index.clone();
    for _ in 0..1 + random.below(12) {
        match random.below(4) {
            0 => spoil32(random, &mut index.fine),
            1 => spoil32(random, &mut index.coarse),
            2 => spoil64(random, &mut index.fine_energy),
            _ => spoil64(random, &mut index.coarse_energy),
        }
    }
    let rows = both.theirs.index().unwrap_or_default();
    both.theirs.alter(&Rows {
        fine: index.fine[..rows.fine.len()].to_vec(),
        coarse: index.coarse[..rows.coarse.len()].to_vec(),
        fine_energy: index.fine_energy[..rows.fine_energy.len()].to_vec(),
        coarse_energy: index.coarse_energy[..rows.coarse_energy.len()].to_vec(),
    });
    both.ours.alter(index);
}

/// One number, a stretch or the whole buffer.
fn spoil32(random: &mut Random, buffer: &mut [f32]) {
    let odd = [
        f32::NAN,
        f32::INFINITY,
        f32::NEG_INFINITY,
        f32::MAX,
        1e-45,
        -0.0,
    ];
    let any = random.one_in(2);
    for at in stretch(random, buffer.len()) {
        buffer[at] = if any {
            f32::from_bits(random.bits() as u32)
        } else {
            random.one_of(&odd)
        };
    }
}

fn spoil64(random: &mut Random, buffer: &mut [f64]) {
    let odd = [
        f64::NAN,
        f64::INFINITY,
        f64::NEG_INFINITY,
        f64::MAX,
        5e-324,
        -1.0,
    ];
    let any = random.one_in(2);
    for at in stretch(random, buffer.len()) {
        buffer[at] = if any {
            f64::from_bits(random.bits())
        } else {
            random.one_of(&odd)
        };
    }
}

fn stretch(random: &mut Random, length: usize) -> std::ops::Range<usize> {
    if length == 0 {
        return 0..0;
    }
    let from = random.below(length);
    match random.below(6) {
        0 => 0..length,
        1 => from..length.min(from + 30),
        _ => from..from + 1,
    }
}

fn step(
    both: &mut Both,
    submission: &super::session::Submission,
    tally: &Tally,
) -> Result<(), String> {
    let (settings, before) = (both.theirs.settings, words::kept(both.ours.words()));
    // A state spoilt for one call is for sessions.
    let handed = both.theirs.handed(submission);
    let expected = match reading::submission_refusal(&settings, &before, &handed) {
        Some(code) => code,
        None if reading::is_reread(&settings, &before, handed.window) => REREAD,
        None => COMPUTED,
    };
    let ours = both.ours.submit(&handed)?;
    tally.submissions.fetch_add(1, Relaxed);
    if ours.code != expected {
        return Err(format!("answer {}, not {expected}", ours.code));
    }
    let Some(snapshot) = ours.snapshot else {
        tally.refused.fetch_add(1, Relaxed);
        if expected == 7 {
            // An answer over an altered index can leave a state that the next call refuses.
            both.set(settings, Kept::FRESH);
        }
        return Ok(());
    };
    if snapshot[1 + place::CANDIDATE_COUNT] > MOST_CANDIDATES as u64 {
        return Err("more than eight candidates".into());
    }
    tally
        .searched
        .fetch_add(u64::from(ours.code == COMPUTED), Relaxed);
    let seen = both.theirs.submit(&handed);
    let same = seen
        .snapshot
        .is_some_and(|s| words::snapshot(&s) == snapshot)
        && both.theirs.state() == both.ours.words();
    tally.as_the_rust.fetch_add(u64::from(same), Relaxed);
    // The Rust goes on from the port's state.
    both.theirs.keep(words::kept(both.ours.words()));
    match ours::support_age(&both.ours.state, 0.0).0 {
        COMPUTED | ours::NO_AGE | 7 => Ok(()),
        code => Err(format!("support age answers {code}")),
    }
}
