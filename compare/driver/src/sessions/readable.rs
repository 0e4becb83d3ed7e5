//! A line for each submission, to judge the sessions by.

use super::session::{Answer, Outcome, Recorded, Submission};
use sonalign::types::{CandidateDiagnostics, Snapshot};

pub fn lines(recorded: &[Recorded]) -> String {
    recorded.iter().map(session).collect()
}

fn session(recorded: &Recorded) -> String {
    let session = &recorded.session;
    let mut text = format!(
        "{}: hop {}, reference of {} frames, bands {}, {}\n",
        session.name,
        session.hop,
        session.reference.times.len(),
        session.reference.bands,
        if recorded.indexed {
            "accepted"
        } else {
            "rejected"
        },
    );
    let both = session.submissions.iter().zip(&recorded.outcomes);
    for (number, (submission, outcome)) in both.enumerate() {
        text += &line(number + 1, submission, outcome);
    }
    text + "\n"
}

fn line(number: usize, submission: &Submission, outcome: &Outcome) -> String {
    let (shows, frames) = (submission.shows, submission.window.times.len());
    let came = match outcome {
        Outcome::Refused(number) => format!("refused {number}"),
        Outcome::Answered(answer) => answered(answer),
    };
    format!("  {number} {shows} [frames {frames}]\n      {came}\n")
}

fn answered(answer: &Answer) -> String {
    let snapshot = &answer.snapshot;
    let diagnostics = &snapshot.diagnostics;
    let spectral = &diagnostics.spectral;
    let mut words = Vec::new();
    if answer.jump {
        words.push("jump".into());
    }
    words.push(if answer.reread { "re-read" } else { "computed" }.into());
    words.push(match snapshot.withhold_reason {
        Some(reason) => format!("{:?} {reason:?}", snapshot.state),
        None => format!("{:?}", snapshot.state),
    });
    if let Some(estimate) = &snapshot.estimate {
        words.push(format!(
            "{} is {:.1}",
            estimate.query_endpoint_recorded_time_ms, estimate.reference_time_ms
        ));
    }
    if spectral.coast_ms > 0.0 {
        words.push(format!("coast {}", spectral.coast_ms));
    }
    if let Some(innovation) = diagnostics.track_innovation_ms {
        words.push(format!("innovation {innovation:.2}"));
    }
    if spectral.fresh_evidence_ms > 0.0 {
        words.push(format!("fresh {}", spectral.fresh_evidence_ms));
    }
    if spectral.global_search {
        words.push("whole search".into());
    }
    words.extend(diagnostics.candidates.iter().map(candidate));
    if !diagnostics.candidates.is_empty() {
        words.push(format!(
            "halves {:.2} {:.2} recent {:.2}",
            spectral.first_half_correlation,
            spectral.second_half_correlation,
            spectral.recent_correlation
        ));
    }
    words.push(milestones(snapshot));
    words.join(", ")
}

fn candidate(candidate: &CandidateDiagnostics) -> String {
    let score = candidate.combined_dense_score;
    format!("{score:.3} at {:.1}", candidate.offset_ms)
}

fn milestones(snapshot: &Snapshot) -> String {
    let readings = [
        snapshot.first_provisional_lock_elapsed_ms,
        snapshot.confirmed_lock_elapsed_ms,
        snapshot.final_lock_elapsed_ms,
    ];
    let shown = readings.map(|reading| reading.map_or("-".into(), |ms| ms.to_string()));
    format!("milestones {}", shown.join(" "))
}
