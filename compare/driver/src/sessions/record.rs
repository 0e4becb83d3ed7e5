//! Runs a session through the Rust.

use super::refusal::refusal;
use super::session::{Answer, Kept, Outcome, Recorded, Session, Soundtrack, Submission, Window};
use sonalign::engine::Engine;
use sonalign::types::{FeatureFrame, FeatureWindow};

pub fn record(session: Session) -> Recorded {
    let reference = reference_frames(&session.reference);
    let mut engine = Engine::new(&reference, session.hop, session.configuration);
    let answer = |submission| outcome(&mut engine, submission);
    let outcomes = session.submissions.iter().map(answer).collect();
    Recorded {
        indexed: engine.matcher.is_some(),
        session,
        outcomes,
    }
}

fn outcome(engine: &mut Engine, submission: &Submission) -> Outcome {
    if let Some(number) = refusal(submission) {
        return Outcome::Refused(number);
    }
    let (window, clock) = (feature_window(&submission.window), submission.clock);
    let (jump, reread) = (jumps(engine, &window), rereads(engine, &window));
    let marked = passes_mark_on(engine, &window, clock);
    assert_eq!(reread, marked, "{}: re-read or not", submission.shows);
    let before = state(engine);
    let snapshot = engine.process(&window, clock);
    if reread {
        assert_eq!(before, state(engine), "a re-reading keeps the state");
    } else {
        let kept = engine.last_snapshot.as_ref();
        assert_eq!(kept, Some(&snapshot), "a computed answer is kept");
        let endpoint = Some(window.endpoint_recorded_time_ms);
        assert_eq!(engine.last_endpoint_ms, endpoint, "and its endpoint");
    }
    let kept = kept(engine);
    Outcome::Answered(Box::new(Answer {
        reread,
        jump,
        snapshot,
        kept,
    }))
}

fn kept(engine: &Engine) -> Kept {
    Kept {
        pending: engine.pending.clone(),
        accepted: engine.accepted.clone(),
        last_global_search_ms: engine.last_global_search_ms,
    }
}

/// Whether document 01 calls it a jump.
fn jumps(engine: &Engine, window: &FeatureWindow) -> bool {
    engine.last_endpoint_ms.is_some_and(|last| {
        window.endpoint_recorded_time_ms < last
            || window.start_recorded_time_ms > last + 2.0 * engine.hop_ms
    })
}

/// Whether document 01 calls it a re-reading.
fn rereads(engine: &Engine, window: &FeatureWindow) -> bool {
    let (Some(last), Some(_)) = (engine.last_endpoint_ms, &engine.last_snapshot) else {
        return false;
    };
    let matcher = engine.matcher.as_ref();
    !jumps(engine, window)
        && window.endpoint_recorded_time_ms - last < 90.0
        && matcher.is_none_or(|matcher| matcher.accepts_timeline(window))
}

/// Whether the Rust answers with its last snapshot: a mark that no computed answer carries is
/// written into that of a copy, and looked for in the copy's answer.
fn passes_mark_on(engine: &Engine, window: &FeatureWindow, clock: f64) -> bool {
    const MARK: usize = usize::MAX;
    let mut copy = engine.clone();
    if let Some(snapshot) = &mut copy.last_snapshot {
        snapshot.diagnostics.track_count = MARK;
    }
    copy.process(window, clock).diagnostics.track_count == MARK
}

/// All of the engine, with every bit of its numbers.
fn state(engine: &Engine) -> String {
    format!("{engine:?}")
}

pub fn reference_frames(from: &Soundtrack) -> Vec<FeatureFrame> {
    // No energy of a reference is looked at.
    let energies = vec![0.0; from.times.len()];
    frames(from.bands, &from.times, &energies, &from.values)
}

pub fn feature_window(from: &Window) -> FeatureWindow {
    let frames = frames(from.bands, &from.times, &from.energies, &from.values);
    FeatureWindow::new(frames).expect("what the Rust refuses is refused before")
}

/// Frame after frame, as the Rust has them.
fn frames(bands: usize, times: &[f64], energies: &[f64], values: &[f32]) -> Vec<FeatureFrame> {
    let value = |band: usize, frame: usize| values[band * times.len() + frame];
    let frame = |i: usize| FeatureFrame {
        recorded_time_ms: times[i],
        energy_dbfs: energies[i],
        pcen_mel: (0..bands).map(|band| value(band, i)).collect(),
    };
    (0..times.len()).map(frame).collect()
}
