//! States made by a caller, set into both sides: what no session from a fresh engine reaches, and
//! the ends of what refusal 7 lets pass.

use super::both::{Both, Opened};
use super::ours::COMPUTED;
use super::reading;
use super::theirs::Seen;
use super::words::{MOST_CANDIDATES, PHASES, REASONS, STAGES, STATES};
use super::{generate, kinds};
use crate::compare::Effort;
use crate::family::pattern;
use crate::random::Random;
use crate::reached;
use sonalign::running::{self, Kept, Open, Track};
use sonalign::types::{
    CandidateDiagnostics, Diagnostics, Estimate, Snapshot, SpectralDiagnostics, State,
};
use std::sync::atomic::{AtomicU64, Ordering::Relaxed};

const PRINTED: u64 = 20;

pub const QUICK_STATES: u64 = 3_000;

/// What made states came to. All of it has to be reached.
#[derive(Default)]
struct Tally {
    states: AtomicU64,
    submissions: AtomicU64,
    differences: AtomicU64,
    refused: AtomicU64,
    confirmed: AtomicU64,
    overwritten: AtomicU64,
    without_snapshot: AtomicU64,
    without_endpoint: AtomicU64,
    eight: AtomicU64,
    carried: AtomicU64,
    supported: AtomicU64,
    at_80: AtomicU64,
}

pub fn check(effort: Effort) -> bool {
    let count = effort.pick(QUICK_STATES, 60_000);
    let tally = Tally::default();
    effort.each("made states", count, |number| {
        if let Err(what) = run(running::open, number, &tally) {
            if tally.differences.fetch_add(1, Relaxed) < PRINTED {
                println!("made state {number}: {what}");
            }
        }
    });
    told(&tally)
}

fn told(tally: &Tally) -> bool {
    let read = |count: &AtomicU64| count.load(Relaxed);
    let differences = read(&tally.differences);
    println!("made states   {differences} differences");
    let counts = [
        ("states set", &tally.states),
        ("submissions", &tally.submissions),
        ("refused 7", &tally.refused),
        ("state Confirmed", &tally.confirmed),
        ("confirmed overwritten by a chain's end", &tally.overwritten),
        (
            "an endpoint without snapshot computed",
            &tally.without_snapshot,
        ),
        (
            "a snapshot without endpoint computed",
            &tally.without_endpoint,
        ),
        ("eight candidates read again", &tally.eight),
        ("a made pending carried", &tally.carried),
        ("a made track supported", &tally.supported),
        ("a peak exactly 80 from a made place", &tally.at_80),
    ];
    let reached = reached::told(&counts.map(|(name, count)| (name, read(count))));
    differences == 0 && reached
}

/// Of another build of the Rust beside the port.
#[cfg(feature = "mutants")]
pub fn run_with(open: Open, number: u64) -> Result<(), String> {
    run(open, number, &Tally::default())
}

/// A session's beginning, then a made state, then the rest of the session.
fn run(open: Open, number: u64, tally: &Tally) -> Result<(), String> {
    let mut random = Random::new(pattern(number ^ 0x003a_de00));
    // Those that listen, without the largest.
    let family = random.below(17) as u64;
    let session = generate::session(random.below(2_000) as u64 * 24 + family);
    let Opened::Opened(mut both) = Both::open_with(open, &session.opening, 3)? else {
        return Ok(());
    };
    let from = random.below(session.submissions.len().max(1));
    let begun = &session.submissions[..from];
    for submission in begun {
        both.submit(submission)?;
    }
    for submission in session.submissions[from..].iter().take(5) {
        if random.one_in(2) {
            let kept = made(&mut random, both.theirs.kept());
            let settings = both.theirs.settings;
            both.set(settings, kept);
            tally.states.fetch_add(1, Relaxed);
        }
        let seen = both.submit(submission).map_err(|what| {
            format!(
                "{what}; session's family {}, submission {from} and on",
                session.family
            )
        })?;
        note(tally, &seen);
        if let Some(kept) = beside(&mut random, &seen) {
            let settings = both.theirs.settings;
            both.set(settings, kept);
            both.submit(submission)
                .map_err(|what| format!("{what}, of a place 80 away"))?;
            tally.at_80.fetch_add(1, Relaxed);
        } else if seen.code == 7 {
            // Nothing more comes of it.
            let settings = both.theirs.settings;
            both.set(settings, Kept::FRESH);
        }
    }
    Ok(())
}

fn note(tally: &Tally, seen: &Seen) {
    let add = |count: &AtomicU64, reached: bool| {
        count.fetch_add(u64::from(reached), Relaxed);
    };
    let (before, after) = (&seen.before, &seen.after);
    let made_state = !reading::is_state(&seen.settings, before);
    add(&tally.submissions, true);
    add(&tally.refused, seen.code == 7 && made_state);
    let Some(snapshot) = &seen.snapshot else {
        return;
    };
    let computed = seen.code == COMPUTED;
    add(
        &tally.confirmed,
        snapshot.state == State::Confirmed && computed,
    );
    let overwritten = before.milestones[1].is_some()
        && before.milestones[2].is_none()
        && after.milestones[2].is_some();
    add(&tally.overwritten, overwritten);
    let (endpoint, kept) = (before.last_endpoint_ms, &before.last_snapshot);
    let near = endpoint.is_some_and(|last| {
        let end = seen.window.times.last().copied().unwrap_or(last);
        seen.jump.is_none() && end - last < 90.0
    });
    add(&tally.without_snapshot, computed && near && kept.is_none());
    add(
        &tally.without_endpoint,
        computed && endpoint.is_none() && kept.is_some(),
    );
    add(
        &tally.eight,
        !computed && snapshot.diagnostics.candidates.len() == MOST_CANDIDATES,
    );
    let carried = match (&before.pending, &after.pending) {
        (Some(old), Some(new)) => old[1] == new[1] && old[2] != new[2],
        _ => false,
    };
    add(&tally.carried, carried);
    add(
        &tally.supported,
        computed && snapshot.diagnostics.track_innovation_ms.is_some(),
    );
}

// ---- states

/// Some parts of the state made anew, the others left.
fn made(random: &mut Random, old: Kept) -> Kept {
    let endpoint = old.last_endpoint_ms.unwrap_or(0.0);
    let place = old
        .accepted
        .or(old.pending)
        .map_or_else(|| offset_of(&old), |track| track[0]);
    let mut kept = old;
    if random.one_in(2) {
        kept.pending = track(random, place, endpoint);
    }
    if random.one_in(2) {
        kept.accepted = track(random, place, endpoint);
    }
    if random.one_in(2) {
        kept.last_global_search_ms = search(random, endpoint);
    }
    if random.one_in(2) {
        kept.milestones = std::array::from_fn(|_| reading_of(random));
    }
    if random.one_in(3) {
        kept.last_endpoint_ms = time(random, endpoint);
    }
    match random.below(4) {
        0 => kept.last_snapshot = None,
        1 => kept.last_snapshot = Some(snapshot(random)),
        _ => {}
    }
    kept
}

/// A state whose places lie exactly 80 from the best peak of a window, for the same window again.
fn beside(random: &mut Random, seen: &Seen) -> Option<Kept> {
    let snapshot = seen.snapshot.as_ref()?;
    let best = snapshot.diagnostics.candidates.first()?.offset_ms;
    let place = best + random.one_of(&[80.0, -80.0]);
    if (best - place).abs() != 80.0 {
        return None;
    }
    let evidence = kinds::evidence(seen);
    let mut kept = seen.after.clone();
    // With a last snapshot it would be a re-reading.
    kept.last_snapshot = None;
    kept.last_global_search_ms = f64::NEG_INFINITY;
    let pending = evidence - random.one_of(&[0.0, 500.0, 1_000.0, 2_500.0]);
    let accepted = evidence - random.one_of(&[0.0, 0.0, 500.0, 1_500.0]);
    kept.pending = (!random.one_in(3)).then_some([place, pending - 1_000.0, pending, 0.5]);
    kept.accepted = random.one_in(2).then_some([place, accepted, accepted, 0.5]);
    Some(kept)
}

fn offset_of(kept: &Kept) -> f64 {
    let snapshot = kept.last_snapshot.as_ref();
    let best = snapshot.and_then(|snapshot| snapshot.diagnostics.candidates.first());
    best.map_or(0.0, |best| best.offset_ms)
}

fn track(random: &mut Random, place: f64, endpoint: f64) -> Option<Track> {
    if random.one_in(4) {
        return None;
    }
    let place = place + random.one_of(&[0.0, 0.0, 5.0, -40.0, 80.0, -80.0, 100.0, 3_000.0]);
    let last = endpoint - random.one_of(&[0.0, 250.0, 1_000.0, 1_500.0, 2_500.0, -3_000.0, 9e3]);
    let first = last - random.one_of(&[0.0, 500.0, 980.0, 1_000.0, -500.0, 1e9]);
    let correlation = random.one_of(&[0.0, 0.5, 1.0, 1.5, -0.7, -0.0, 1e13]);
    let mut track = [place, first, last, correlation];
    if random.one_in(5) {
        track[random.below(4)] = end(random, 1e13);
    }
    Some(track)
}

/// A limit from both sides, and what is no number.
fn end(random: &mut Random, limit: f64) -> f64 {
    random.one_of(&[
        limit,
        -limit,
        limit,
        -limit,
        limit.next_up(),
        (-limit).next_down(),
        f64::NAN,
        f64::INFINITY,
        f64::NEG_INFINITY,
        -0.0,
    ])
}

fn search(random: &mut Random, endpoint: f64) -> f64 {
    match random.below(6) {
        0 => f64::NEG_INFINITY,
        1 => end(random, 1e12),
        2 => endpoint + 5_000.0,
        _ => endpoint - random.one_of(&[0.0, 400.0, 500.0, 1_900.0, 2_000.0]),
    }
}

fn reading_of(random: &mut Random) -> Option<f64> {
    match random.below(20) {
        0..=8 => None,
        9 => Some(1e300),
        10 => Some(-f64::MAX),
        11 if random.one_in(6) => Some(f64::NAN),
        12 if random.one_in(6) => Some(f64::INFINITY),
        _ => Some(random.unit() * 1e5),
    }
}

fn time(random: &mut Random, endpoint: f64) -> Option<f64> {
    match random.below(6) {
        0 => None,
        1 => Some(end(random, 1e12)),
        2 => Some(endpoint - 90.0),
        _ => Some(endpoint + random.one_of(&[0.0, 0.0, 10.0, 400.0])),
    }
}

// ---- snapshots

fn number(random: &mut Random) -> f64 {
    match random.below(8) {
        0 => f64::NAN,
        1 => f64::INFINITY,
        2 => -0.0,
        3 => f64::from_bits(random.bits()),
        _ => random.unit() * 2_000.0 - 500.0,
    }
}

fn maybe(random: &mut Random) -> Option<f64> {
    random.one_in(2).then(|| number(random))
}

fn estimate(random: &mut Random) -> Option<Estimate> {
    let mut numbers: [f64; 3] = std::array::from_fn(|_| random.unit() * 1e6);
    if random.one_in(6) {
        numbers[random.below(3)] = end(random, 1e13);
    }
    let [endpoint, reference, offset] = numbers;
    random.one_in(2).then_some(Estimate {
        query_endpoint_recorded_time_ms: endpoint,
        reference_time_ms: reference,
        offset_ms: offset,
    })
}

fn snapshot(random: &mut Random) -> Snapshot {
    let candidates = random.one_of(&[0, 1, 3, MOST_CANDIDATES, MOST_CANDIDATES]);
    Snapshot {
        state: random.one_of(&STATES),
        phase: random.one_of(&PHASES),
        stage: random.one_of(&STAGES),
        estimate: estimate(random),
        withhold_reason: random.one_in(2).then(|| random.one_of(&REASONS)),
        confidence: number(random),
        diagnostics: Diagnostics {
            query_duration_ms: number(random),
            active_frame_fraction: number(random),
            coarse_ambiguous: random.one_in(2),
            dense_margin: number(random),
            offset_stability_ms: maybe(random),
            track_innovation_ms: maybe(random),
            track_count: random.one_of(&[0, 1, 7, usize::MAX - 1]),
            offset_tracker_confirmed: random.one_in(2),
            offset_tracker_stable: random.one_in(2),
            candidates: (0..candidates).map(|_| candidate(random)).collect(),
            spectral: spectral(random),
        },
        first_provisional_lock_elapsed_ms: reading_of(random),
        confirmed_lock_elapsed_ms: reading_of(random),
        final_lock_elapsed_ms: reading_of(random),
    }
}

fn candidate(random: &mut Random) -> CandidateDiagnostics {
    CandidateDiagnostics {
        offset_ms: number(random),
        coarse_offset_ms: number(random),
        comparable_frame_count: random.one_of(&[0, 17, usize::MAX]),
        coverage_ratio: number(random),
        combined_dense_score: number(random),
    }
}

fn spectral(random: &mut Random) -> SpectralDiagnostics {
    SpectralDiagnostics {
        global_search: random.one_in(2),
        correlation: number(random),
        competing_peak_margin: maybe(random),
        first_half_correlation: number(random),
        second_half_correlation: number(random),
        recent_correlation: number(random),
        fresh_evidence_ms: number(random),
        coast_ms: number(random),
    }
}
