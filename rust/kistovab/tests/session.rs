//! Sessions: a lock, re-readings, a coast, a loss, a jump; clones; what a snapshot is read into.

mod common;

use common::{after, engine, heard, locked, missed, reference, window, HOP_MS};
use kistovab::{
    AnswerKind, Configuration, Engine, FeatureWindow, LockPhase, Snapshot, Stage, State,
    WithholdReason,
};

#[test]
fn a_lock_takes_three_windows_of_a_second() {
    let mut engine = engine();
    let first = engine.process(&after(0.0), 7.0);
    assert_eq!(first.state, State::Locking);
    assert_eq!(
        first.withhold_reason,
        Some(WithholdReason::WeakAlignmentPeak)
    );
    assert_eq!(engine.process(&after(0.5), 8.0).state, State::Locking);
    let shown = engine.process(&after(1.0), 9.0);
    assert_eq!(shown.state, State::Locked);
    assert_eq!(shown.phase, LockPhase::Final);
    assert_eq!(shown.stage, Stage::Tracking);
    assert_eq!(shown.withhold_reason, None);
    assert_eq!(shown.first_provisional_lock_elapsed_ms, Some(7.0));
    assert_eq!(shown.confirmed_lock_elapsed_ms, Some(9.0));
    assert_eq!(shown.final_lock_elapsed_ms, Some(9.0));
    let place = shown.estimate.expect("a lock has a place");
    assert_eq!(place.query_endpoint_recorded_time_ms, 3_980.0);
    assert!((place.offset_ms - 200.0 * HOP_MS).abs() < 1.0);
    assert_eq!(place.reference_time_ms, 3_980.0 + place.offset_ms);
    let spectral = shown.diagnostics.spectral;
    assert!(spectral.global_search && spectral.correlation > 0.9);
    assert_eq!(spectral.fresh_evidence_ms, 1_000.0);
}

#[test]
fn a_rereading_moves_the_estimate_alone() {
    let mut engine = locked();
    let last = engine.try_process(&after(1.5), 20.0).expect("answered");
    assert_eq!(last.kind, AnswerKind::Computed);
    let before = format!("{engine:?}");
    let again = engine.try_process(&after(1.58), 30.0).expect("answered");
    assert_eq!(again.kind, AnswerKind::Reread);
    assert_eq!(format!("{engine:?}"), before);
    let (last, again) = (last.snapshot, again.snapshot);
    let moved = again.estimate.clone().expect("a lock has a place");
    assert_eq!(moved.query_endpoint_recorded_time_ms, 4_560.0);
    let unmoved = Snapshot {
        estimate: last.estimate.clone(),
        ..again
    };
    assert_eq!(unmoved, last);
}

#[test]
fn support_ages_while_a_lock_coasts() {
    let mut engine = engine();
    assert_eq!(engine.support_age(), None);
    engine.process(&after(0.0), 0.0);
    assert_eq!(engine.support_age(), None);
    let mut engine = locked();
    assert_eq!(engine.support_age(), Some(0.0));
    for (seconds, age) in [(1.5, 500.0), (2.0, 1_000.0), (2.5, 1_500.0)] {
        let shown = engine.process(&missed(seconds), 0.0);
        assert_eq!(shown.state, State::Locked);
        assert_eq!(
            shown.withhold_reason,
            Some(WithholdReason::WeakAlignmentPeak)
        );
        assert_eq!(shown.diagnostics.spectral.coast_ms, age);
        assert_eq!(engine.support_age(), Some(age));
    }
    let shown = engine.process(&missed(3.0), 0.0);
    assert_eq!((shown.state, shown.estimate), (State::Relocking, None));
    assert_eq!(engine.support_age(), None);
}

#[test]
fn silence_loses_the_lock_and_a_chain_brings_it_back() {
    let mut engine = locked();
    let mut silent = heard(275, 1_500.0);
    for frame in &mut silent {
        frame.energy_dbfs = f64::NEG_INFINITY;
    }
    let silent = FeatureWindow::new(silent).expect("frames without fault");
    let shown = engine.process(&silent, 50.0);
    assert_eq!(shown.state, State::Lost);
    assert_eq!(
        shown.withhold_reason,
        Some(WithholdReason::InsufficientEnergy)
    );
    let states = [2.0, 2.5, 3.0].map(|s| engine.process(&after(s), 60.0).state);
    assert_eq!(states, [State::Relocking, State::Relocking, State::Locked]);
    let shown = engine.process(&after(3.5), 70.0);
    assert_eq!(shown.final_lock_elapsed_ms, Some(1_000.0));
}

#[test]
fn a_jump_starts_from_nothing() {
    let mut engine = locked();
    let shown = engine.process(&window(20, 90_000.0), 0.0);
    assert_eq!((shown.state, shown.estimate), (State::Relocking, None));
    assert_eq!(shown.phase, LockPhase::Final);
}

#[test]
fn what_cannot_be_searched_fails() {
    let mut late = reference();
    late[40].recorded_time_ms += 1.0;
    let mut negative = reference();
    negative[40].pcen_mel[1] = -0.5;
    let mut ragged = reference();
    ragged[40].pcen_mel.push(0.5);
    let mut bandless = reference();
    bandless.iter_mut().for_each(|frame| frame.pcen_mel.clear());
    for frames in [Vec::new(), late, negative, ragged, bandless] {
        let mut engine = Engine::new(&frames, HOP_MS, Configuration::default());
        let shown = engine.process(&after(0.0), 0.0);
        assert_eq!(shown.state, State::Failed);
        assert_eq!(
            shown.withhold_reason,
            Some(WithholdReason::IndexUnavailable)
        );
    }
}

#[test]
fn a_clone_goes_its_own_way() {
    let mut engine = locked();
    let mut clone = engine.clone();
    assert_eq!(
        engine.process(&missed(1.5), 1.0),
        clone.process(&missed(1.5), 1.0)
    );
    clone.process(&window(20, 90_000.0), 2.0);
    assert_eq!(engine.support_age(), Some(500.0));
    assert_eq!(clone.support_age(), None);
    assert_eq!(engine.process(&after(2.0), 3.0).state, State::Locked);
}

#[test]
fn a_snapshot_is_filled_as_it_would_be_made() {
    let (mut engine, mut other) = (engine(), engine());
    let mut snapshot = Snapshot::blank();
    for seconds in [0.0, 0.5, 0.54, 1.0, 1.5, 1.58, 3.0] {
        let clock = seconds * 10.0;
        let made = engine
            .try_process(&after(seconds), clock)
            .expect("answered");
        let kind = other.try_process_into(&after(seconds), clock, &mut snapshot);
        assert_eq!(kind, Ok(made.kind));
        assert_eq!(snapshot, made.snapshot);
    }
}

#[test]
fn an_engine_moves_between_threads() {
    fn shared<T: Send + Sync + Clone + std::fmt::Debug>(_: &T) {}
    let mut engine = locked();
    shared(&engine);
    let here = engine.clone().process(&after(1.5), 1.0);
    let there = std::thread::spawn(move || engine.process(&after(1.5), 1.0));
    assert_eq!(there.join().expect("no panic"), here);
}

#[test]
fn an_engine_is_told_by_what_it_was_opened_with() {
    let text = format!("{:?}", engine());
    assert!(text.contains("hop_ms: 20.0, reference_frames: 900, reference_bands: 2"));
    assert!(text.contains("last_snapshot: None"));
    assert!(format!("{:?}", locked()).contains("state: Locked"));
}
