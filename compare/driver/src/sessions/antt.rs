//! A recorded session as a file of definitions: every input, every field of every answer and of the
//! lock after it, exactly.

use super::float::{narrow, wide};
use super::session::{Answer, Kept, Lent, Outcome, Recorded, Submission, Window};
use sonalign::engine::Hypothesis;
use sonalign::types::{CandidateDiagnostics, Configuration, Estimate, Snapshot};
use std::fmt::Debug;

/// The session's file is its module: `lost and found` stands in LostAndFound.antt.
pub fn file_name(recorded: &Recorded) -> String {
    let word = |word: &str| word[..1].to_uppercase() + &word[1..];
    let words: String = recorded.session.name.split(' ').map(word).collect();
    words + ".antt"
}

pub fn text(recorded: &Recorded) -> String {
    let session = &recorded.session;
    let reference = &session.reference;
    let mut text = HEAD.to_string();
    let mut define = |name: String, kind: &str, body: String| {
        text += &format!("\nabbrev pub {name} : {kind}\n{name} = {body}\n");
    };
    let configuration = configuration(&session.configuration);
    define("configuration".into(), "Configuration", configuration);
    define("hop".into(), "Float", wide(session.hop));
    let times = list(&reference.times, wide);
    let values = list(&reference.values, narrow);
    let bands = reference.bands;
    let fields = format!("bands = {bands}; times = {times}; values = {values}");
    define("reference".into(), "Features", record(&fields));
    let index = "opened_index configuration hop reference (room_for reference)";
    define("index".into(), "Index", index.into());
    let turns = session.submissions.iter().zip(&recorded.outcomes);
    for (n, (submission, outcome)) in (1..).zip(turns) {
        define(format!("window{n}"), "Window", window(&submission.window));
        if let Outcome::Answered(answer) = outcome {
            define(
                format!("snapshot{n}"),
                "Snapshot",
                snapshot(&answer.snapshot),
            );
        }
        let handed = handed(submission, n, reference.times.len());
        let fields = format!("submission = {handed}; reply = {}", reply(outcome, n));
        define(format!("turn{n}"), "Turn", record(&fields));
    }
    let numbers: Vec<usize> = (1..=recorded.outcomes.len()).collect();
    let turns = list(&numbers, |n| format!("turn{n}"));
    let fields = "configuration = configuration; hop = hop; reference = reference; turns = ";
    define(
        "session".into(),
        "Session",
        record(&(fields.to_string() + &turns)),
    );
    with_titles(text, session.submissions.iter())
}

/// What a submission shows stands above its window.
fn with_titles<'a>(text: String, submissions: impl Iterator<Item = &'a Submission>) -> String {
    let title = |text: String, (n, submission): (usize, &Submission)| {
        let window = format!("abbrev pub window{n} :");
        let titled = format!("-- ---- {n}, {}\n{window}", submission.shows);
        text.replace(&window, &titled)
    };
    (1..).zip(submissions).fold(text, title)
}

const HEAD: &str = "\
-- A session of the Rust, recorded by `compare/run --sessions`, which writes this file: not to be edited by hand. Definitions only.
-- `fin s m (pos k)` is m × 2^k and `fin s m (negsuc k)` is m × 2^-(k + 1), below zero where s is true.
use Rattle.std.specs.Prelude.{true, false, None, Some, [], ◌∷◌, pos, negsuc, Float}
use Rattle.std.specs.Float.{fin, inf}
use Rattle.matcher_spec.specs.Index.{Index}
use Rattle.engine_spec.specs.Windows.{Window}
use Rattle.matcher_spec.specs.Features.{Features}
use Rattle.engine_spec.specs.Opening.{opened_index}
use Rattle.engine_spec.specs.Tracking.{hypothesis}
use Rattle.engine_spec.specs.declared.types.Configuration.{Configuration}
use Rattle.engine_spec.specs.declared.types.Snapshot.{Snapshot}
use Rattle.engine_spec.specs.declared.types.State.TheVariants as state
use Rattle.engine_spec.specs.declared.types.LockPhase.TheVariants as phase
use Rattle.engine_spec.specs.declared.types.Stage.TheVariants as stage
use Rattle.engine_spec.specs.declared.types.WithholdReason.TheVariants as reason
use Rattle.engine_spec.specs.declared.types.Refusal.TheVariants as refusal
use Rattle.engine_sessions.specs.Session.{Session, Turn, room_for, heard, heard_without_work, eight, refusal, answered}
";

// ---- what is handed in
fn configuration(c: &Configuration) -> String {
    let fields = [
        number(
            "minimum_readiness_duration_ms",
            c.minimum_readiness_duration_ms,
        ),
        number("tracking_query_duration_ms", c.tracking_query_duration_ms),
        number(
            "minimum_active_frame_energy_dbfs",
            c.minimum_active_frame_energy_dbfs,
        ),
        number("minimum_average_energy_dbfs", c.minimum_average_energy_dbfs),
        number(
            "minimum_active_frame_fraction",
            c.minimum_active_frame_fraction,
        ),
    ];
    record(&fields.join("; "))
}

fn window(w: &Window) -> String {
    let (times, energies) = (list(&w.times, wide), list(&w.energies, wide));
    let values = list(&w.values, narrow);
    let fields = format!(
        "bands = {}; times = {times}; energies = {energies}; values = {values}",
        w.bands
    );
    record(&fields)
}

fn handed(submission: &Submission, n: usize, frames: usize) -> String {
    let clock = wide(submission.clock);
    let clock = if clock == "nan" {
        clock
    } else {
        format!("({clock})")
    };
    match submission.lent {
        Lent::Enough => format!("heard {frames} index window{n} {clock}"),
        Lent::NoIndex => format!("heard {frames} no_index window{n} {clock}"),
        Lent::NoWork => format!("heard_without_work index window{n} {clock}"),
    }
}

// ---- what came of it
fn reply(outcome: &Outcome, n: usize) -> String {
    match outcome {
        Outcome::Refused(number) => format!("refusal refusal.{}", refusal_name(*number)),
        Outcome::Answered(answer) => answered(answer, n),
    }
}

fn answered(answer: &Answer, n: usize) -> String {
    if answer.reread {
        return format!("again snapshot{n}");
    }
    format!("answered snapshot{n} ({})", lock(&answer.kept))
}

fn refusal_name(number: u8) -> &'static str {
    match number {
        6 => "IndexTooShort",
        8 => "ClockNotFinite",
        9 => "NoFrames",
        10 => "WindowTooLarge",
        11 => "WindowInvalid",
        12 => "WindowTimeOutOfRange",
        13 => "WorkTooShort",
        _ => unreachable!("a submission to a reached state is refused with 6 or 8 to 13"),
    }
}

fn lock(kept: &Kept) -> String {
    let (pending, accepted) = (hypothesis(&kept.pending), hypothesis(&kept.accepted));
    let last = milliseconds(kept.last_global_search_ms);
    record(&format!(
        "pending = {pending}; accepted = {accepted}; last_global_search_ms = {last}"
    ))
}

fn hypothesis(hypothesis: &Option<Hypothesis>) -> String {
    some(hypothesis.as_ref().map(|h| {
        format!(
            "hypothesis ({}) ({}) ({}) ({})",
            wide(h.offset_ms),
            milliseconds(h.first_evidence_ms),
            milliseconds(h.last_evidence_ms),
            wide(h.correlation)
        )
    }))
}

fn snapshot(s: &Snapshot) -> String {
    let reason = some(s.withhold_reason.map(|reason| format!("reason.{reason:?}")));
    let fields = [
        format!("state = state.{:?}", s.state),
        format!("phase = phase.{:?}", s.phase),
        format!("stage = stage.{:?}", s.stage),
        format!("estimate = {}", estimate(s.estimate.as_ref())),
        named("withhold_reason", reason),
        number("confidence", s.confidence),
        format!("diagnostics = {}", diagnostics(s)),
        milestone(
            "first_provisional_lock_elapsed_ms",
            s.first_provisional_lock_elapsed_ms,
        ),
        milestone("confirmed_lock_elapsed_ms", s.confirmed_lock_elapsed_ms),
        milestone("final_lock_elapsed_ms", s.final_lock_elapsed_ms),
    ];
    rows(0, &fields)
}

fn estimate(estimate: Option<&Estimate>) -> String {
    some(estimate.map(|e| {
        let endpoint = milliseconds(e.query_endpoint_recorded_time_ms);
        let fields = [
            named("query_endpoint_recorded_time_ms", endpoint),
            named("reference_time_ms", milliseconds(e.reference_time_ms)),
            number("offset_ms", e.offset_ms),
        ];
        record(&fields.join("; "))
    }))
}

fn diagnostics(s: &Snapshot) -> String {
    let d = &s.diagnostics;
    let candidates: Vec<String> = d.candidates.iter().map(|c| candidate(c) + " ∷ ").collect();
    let fields = [
        number("query_duration_ms", d.query_duration_ms),
        number("active_frame_fraction", d.active_frame_fraction),
        plain("coarse_ambiguous", d.coarse_ambiguous),
        number("dense_margin", d.dense_margin),
        maybe("offset_stability_ms", d.offset_stability_ms),
        maybe("track_innovation_ms", d.track_innovation_ms),
        plain("track_count", d.track_count),
        plain("offset_tracker_confirmed", d.offset_tracker_confirmed),
        plain("offset_tracker_stable", d.offset_tracker_stable),
        plain("candidate_count", d.candidates.len()),
        format!("candidates = eight ({}[])", candidates.concat()),
        format!("spectral = {}", spectral(s)),
    ];
    rows(1, &fields)
}

fn candidate(c: &CandidateDiagnostics) -> String {
    let fields = [
        number("offset_ms", c.offset_ms),
        number("coarse_offset_ms", c.coarse_offset_ms),
        plain("comparable_frame_count", c.comparable_frame_count),
        number("coverage_ratio", c.coverage_ratio),
        number("combined_dense_score", c.combined_dense_score),
    ];
    record(&fields.join("; "))
}

fn spectral(s: &Snapshot) -> String {
    let s = &s.diagnostics.spectral;
    let fields = [
        plain("global_search", s.global_search),
        number("correlation", s.correlation),
        maybe("competing_peak_margin", s.competing_peak_margin),
        number("first_half_correlation", s.first_half_correlation),
        number("second_half_correlation", s.second_half_correlation),
        number("recent_correlation", s.recent_correlation),
        number("fresh_evidence_ms", s.fresh_evidence_ms),
        number("coast_ms", s.coast_ms),
    ];
    rows(2, &fields)
}

// ---- fields, records and lists
fn named(name: &str, word: String) -> String {
    format!("{name} = {word}")
}

fn number(name: &str, x: f64) -> String {
    named(name, wide(x))
}

fn maybe(name: &str, x: Option<f64>) -> String {
    named(name, some(x.map(wide)))
}

fn milestone(name: &str, at: Option<f64>) -> String {
    named(name, some(at.map(milliseconds)))
}

fn some(word: Option<String>) -> String {
    word.map_or("None".into(), |word| format!("Some ({word})"))
}

fn milliseconds(x: f64) -> String {
    record(&number("0", x))
}

fn plain(name: &str, x: impl Debug) -> String {
    named(name, format!("{x:?}"))
}

fn record(fields: &str) -> String {
    format!("record {{ {fields} }}")
}

/// A record of one field a line.
fn rows(depth: usize, fields: &[String]) -> String {
    let margin = "  ".repeat(depth);
    let lines: Vec<String> = fields.iter().map(|f| format!("{margin}  {f};\n")).collect();
    format!("record {{\n{}{margin}}}", lines.concat())
}

fn list<T: Copy>(values: &[T], word: impl Fn(T) -> String) -> String {
    let words: Vec<String> = values.iter().map(|x| word(*x) + " ∷ ").collect();
    words.concat() + "[]"
}
