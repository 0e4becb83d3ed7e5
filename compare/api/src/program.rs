//! A program written for sonalign's API. It is built twice, with `engine` and `types` of sonalign
//! and of kistovab, and has to print the same: every snapshot of a session, what windows and
//! configurations are turned down for, and whether something panics.

use crate::engine::Engine;
use crate::types::{
    CandidateDiagnostics, Configuration, Diagnostics, Estimate, FeatureFrame, FeatureWindow,
    InputError, LockPhase, Snapshot, SpectralDiagnostics, Stage, State, WithholdReason,
};
use std::error::Error;
use std::panic::{self, AssertUnwindSafe};

pub fn run() {
    configurations();
    windows();
    references();
    session();
    clones();
    panics();
}

// ---- sound

const HOP_MS: f64 = 20.0;
const BANDS: usize = 3;

/// A value from 0 to 4 that lasts four frames, and a smaller one that lasts one.
fn value(seed: u64, band: usize, frame: usize) -> f32 {
    let chance = |n: u64| {
        let mixed = (n ^ (n >> 31)).wrapping_mul(0x9e37_79b9_7f4a_7c15);
        let mixed = (mixed ^ (mixed >> 29)).wrapping_mul(0xbf58_476d_1ce4_e5b9);
        (mixed >> 40) as f32 / (1 << 24) as f32
    };
    let at = |step: usize| seed * 1_000_003 + (band * 100_000 + step) as u64;
    3.0 * chance(at(frame / 4)) + chance(at(50_000 + frame))
}

fn frame(seed: u64, number: usize, recorded_time_ms: f64) -> FeatureFrame {
    FeatureFrame {
        recorded_time_ms,
        energy_dbfs: -20.0 - (number % 7) as f64,
        pcen_mel: (0..BANDS).map(|band| value(seed, band, number)).collect(),
    }
}

fn reference() -> Vec<FeatureFrame> {
    (0..1_200)
        .map(|i| frame(1, i, 5_000.0 + i as f64 * HOP_MS))
        .collect()
}

/// 150 frames from `begin_ms` on, of sound that begins at the reference's frame `place`, a little
/// changed.
fn heard(seed: u64, place: usize, begin_ms: f64) -> Vec<FeatureFrame> {
    let worn = |i: usize| {
        let mut heard = frame(seed, place + i, begin_ms + i as f64 * HOP_MS);
        for (band, level) in heard.pcen_mel.iter_mut().enumerate() {
            *level = 0.75 * *level + 0.25 * value(9, band, place + i);
        }
        heard
    };
    (0..150).map(worn).collect()
}

fn window(frames: Vec<FeatureFrame>) -> FeatureWindow {
    FeatureWindow::new(frames).expect("frames without fault")
}

type Change = fn(&mut Vec<FeatureFrame>);

// ---- what is handed in

fn configurations() {
    let default = Configuration::default();
    println!("{default:?} {:?}", default.validate());
    let wrong = [
        Configuration {
            minimum_readiness_duration_ms: 0.0,
            ..default
        },
        Configuration {
            tracking_query_duration_ms: f64::INFINITY,
            ..default
        },
        Configuration {
            minimum_active_frame_energy_dbfs: f64::NAN,
            ..default
        },
        Configuration {
            minimum_average_energy_dbfs: f64::NEG_INFINITY,
            ..default
        },
        Configuration {
            minimum_active_frame_fraction: 1.5,
            ..default
        },
    ];
    for configuration in wrong {
        said("configuration", configuration.validate());
    }
}

fn windows() {
    let changes: [Change; 9] = [
        |frames| frames.clear(),
        |frames| frames[0].pcen_mel.clear(),
        |frames| frames[2].pcen_mel.push(0.5),
        |frames| frames[1].pcen_mel[0] = -1.0,
        |frames| frames[1].pcen_mel[0] = f32::INFINITY,
        |frames| frames[2].recorded_time_ms = f64::NAN,
        |frames| frames[0].energy_dbfs = f64::INFINITY,
        |frames| frames[0].energy_dbfs = f64::NAN,
        |frames| frames[0].energy_dbfs = f64::NEG_INFINITY,
    ];
    for change in changes {
        let mut frames = heard(1, 7, 100.0);
        frames.truncate(3);
        change(&mut frames);
        said("window", FeatureWindow::new(frames));
    }
    let window = window(heard(1, 7, 100.0));
    let start = window.start_recorded_time_ms();
    let end = window.endpoint_recorded_time_ms();
    let (duration, last) = (window.duration_ms(), window.frames().last());
    println!("{start:?} {end:?} {duration:?} {last:?}");
    println!("equal to its clone: {}", window == window.clone());
}

fn said<T: std::fmt::Debug>(what: &str, tried: Result<T, InputError>) {
    match tried {
        Ok(taken) => println!("{what}: {taken:?}"),
        Err(error) => {
            let InputError(text) = error;
            let boxed: Box<dyn Error + Send + Sync> = Box::new(error);
            println!("{what}: {error:?}, {boxed}, {text}");
        }
    }
}

/// References that cannot be searched.
fn references() {
    let mut faulty = vec![Vec::new(), reference()[..1].to_vec()];
    let changes: [Change; 5] = [
        |frames| frames[40].recorded_time_ms += 1.0,
        |frames| frames[40].recorded_time_ms = f64::NAN,
        |frames| frames[40].pcen_mel[1] = -0.5,
        |frames| frames[40].pcen_mel.push(0.5),
        |frames| frames.iter_mut().for_each(|frame| frame.pcen_mel.clear()),
    ];
    for change in changes {
        let mut frames = reference();
        change(&mut frames);
        faulty.push(frames);
    }
    for frames in faulty {
        let mut engine = Engine::new(&frames, HOP_MS, Configuration::default());
        shown("failed", &engine.process(&window(heard(1, 100, 0.0)), 1.0));
        shown("again", &engine.process(&window(heard(1, 103, 60.0)), 2.0));
    }
}

// ---- a session

fn session() {
    let mut engine = Engine::new(&reference(), HOP_MS, Configuration::default());
    let mut clock = 1_000.0;
    for (what, frames) in steps() {
        clock += 250.5;
        shown(what, &engine.process(&window(frames), clock));
    }
}

/// A lock, re-readings, a coast and its end, a lock elsewhere, a loss, and a jump.
fn steps() -> Vec<(&'static str, Vec<FeatureFrame>)> {
    let begin = |step: usize| 500.0 * step as f64;
    let mut steps = vec![("short", heard(1, 200, 0.0)[..90].to_vec())];
    for step in 1..9 {
        let place = 200 + 25 * step;
        steps.push(("heard", heard(1, place, begin(step))));
        steps.push(("again", heard(1, place + 3, begin(step) + 60.0)));
        steps.push(("again", heard(1, place + 4, begin(step) + 80.0)));
    }
    for step in 9..14 {
        steps.push(("other sound", heard(2, 25 * step, begin(step))));
    }
    for step in 14..20 {
        steps.push(("elsewhere", heard(1, 300 + 25 * step, begin(step))));
    }
    let mut silent = heard(1, 800, begin(20));
    for frame in &mut silent {
        frame.energy_dbfs = f64::NEG_INFINITY;
    }
    steps.push(("silent", silent));
    let mut uneven = heard(1, 825, begin(21));
    uneven[70].recorded_time_ms += 0.75 * HOP_MS;
    steps.push(("uneven", uneven));
    for step in 0..6 {
        let frames = heard(1, 30 + 50 * step, 60_000.0 + begin(2 * step));
        steps.push(("after a jump", frames));
    }
    steps
}

/// A clone goes its own way.
fn clones() {
    let mut engine = Engine::new(&reference(), HOP_MS, Configuration::default());
    engine.process(&window(heard(1, 300, 0.0)), 10.0);
    let mut clone = engine.clone();
    for (begin, place) in [(500.0, 325), (1_000.0, 350), (1_500.0, 375)] {
        let here = window(heard(1, place, begin));
        shown("engine", &engine.process(&here, begin));
        let there = window(heard(1, place + 200, begin));
        shown("clone", &clone.process(&there, begin));
    }
}

/// Whether it panics; with which text is each crate's own.
fn panics() {
    panic::set_hook(Box::new(|_| {}));
    let wrong = Configuration {
        minimum_active_frame_fraction: -1.0,
        ..Default::default()
    };
    let opened = panic::catch_unwind(|| Engine::new(&[], HOP_MS, wrong));
    println!("opened: {}", opened.is_ok());
    let mut engine = Engine::new(&reference(), HOP_MS, Configuration::default());
    let query = window(heard(1, 300, 0.0));
    for clock in [f64::NAN, f64::INFINITY, f64::NEG_INFINITY, 5.0] {
        let answered = panic::catch_unwind(AssertUnwindSafe(|| engine.process(&query, clock)));
        println!("answered: {:?}", answered.ok());
    }
}

// ---- what is answered

fn shown(what: &str, snapshot: &Snapshot) {
    let state = state_name(snapshot.state);
    let phase = phase_name(snapshot.phase);
    let stage = stage_name(snapshot.stage);
    let reason = snapshot.withhold_reason.map_or("none", reason_name);
    println!("{what}: {state}, {phase}, {stage}, {reason}");
    println!("  {snapshot:?}");
    println!("  put together again: {}", put_together(snapshot));
}

/// Takes a struct apart and puts it together: it has these fields and no others.
macro_rules! again {
    ($value:expr, $type:ident { $($field:ident),+ $(,)? }) => {{
        let $type { $($field),+ } = $value.clone();
        $type { $($field),+ } == *$value
    }};
}

#[rustfmt::skip]
fn put_together(snapshot: &Snapshot) -> bool {
    let diagnostics = &snapshot.diagnostics;
    let spectral = &diagnostics.spectral;
    let place = |estimate: &Estimate| again!(estimate, Estimate {
        query_endpoint_recorded_time_ms, reference_time_ms, offset_ms,
    });
    let candidate = |candidate: &CandidateDiagnostics| again!(candidate, CandidateDiagnostics {
        offset_ms, coarse_offset_ms, comparable_frame_count, coverage_ratio, combined_dense_score,
    });
    snapshot.estimate.as_ref().is_none_or(place)
        && diagnostics.candidates.iter().all(candidate)
        && again!(spectral, SpectralDiagnostics {
            global_search, correlation, competing_peak_margin, first_half_correlation,
            second_half_correlation, recent_correlation, fresh_evidence_ms, coast_ms,
        })
        && again!(diagnostics, Diagnostics {
            query_duration_ms, active_frame_fraction, coarse_ambiguous, dense_margin,
            offset_stability_ms, track_innovation_ms, track_count, offset_tracker_confirmed,
            offset_tracker_stable, candidates, spectral,
        })
        && again!(snapshot, Snapshot {
            state, phase, stage, estimate, withhold_reason, confidence, diagnostics,
            first_provisional_lock_elapsed_ms, confirmed_lock_elapsed_ms, final_lock_elapsed_ms,
        })
}

fn state_name(state: State) -> &'static str {
    match state {
        State::Ready => "ready",
        State::Listening => "listening",
        State::Locking => "locking",
        State::Confirmed => "confirmed",
        State::Locked => "locked",
        State::Drifting => "drifting",
        State::Relocking => "relocking",
        State::Lost => "lost",
        State::Failed => "failed",
    }
}

fn phase_name(phase: LockPhase) -> &'static str {
    match phase {
        LockPhase::None => "no phase",
        LockPhase::Provisional => "provisional",
        LockPhase::Confirmed => "confirmed",
        LockPhase::Final => "final",
    }
}

fn stage_name(stage: Stage) -> &'static str {
    match stage {
        Stage::Readiness => "readiness",
        Stage::LandmarkCoarse => "landmarks",
        Stage::FastTimingVerify => "fast",
        Stage::RobustVerify => "robust",
        Stage::Tracking => "tracking",
        Stage::Relock => "relock",
    }
}

fn reason_name(reason: WithholdReason) -> &'static str {
    match reason {
        WithholdReason::InsufficientDuration => "too short",
        WithholdReason::InsufficientEnergy => "too quiet",
        WithholdReason::InsufficientActiveFrames => "too few active",
        WithholdReason::InsufficientLandmarkEvidence => "too few landmarks",
        WithholdReason::WeakAlignmentPeak => "weak",
        WithholdReason::AmbiguousOffset => "ambiguous",
        WithholdReason::UnstableTrackingResidual => "unstable",
        WithholdReason::LostSignal => "lost signal",
        WithholdReason::DecodeFailed => "not decoded",
        WithholdReason::IndexUnavailable => "no index",
    }
}
