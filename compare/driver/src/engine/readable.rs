//! A session in lines, for whoever looks at a difference.

use super::both::Both;
use super::kinds;
use super::session::{Session, Submission};
use super::theirs::Seen;
use super::words::{self, place};
use sonalign::running::Running;
use sonalign::types::Snapshot;

pub fn head(number: u64, session: &Session) -> String {
    let opening = &session.opening;
    format!(
        "session {number} ({}): hop {}, reference of {} frames from {:?}, bands {}, {:?}\n",
        session.family,
        opening.hop,
        opening.reference.times.len(),
        opening.reference.times.first(),
        opening.reference.bands,
        opening.configuration,
    )
}

pub fn line(
    number: usize,
    submission: &Submission,
    answer: &Result<Seen, String>,
    both: &Both<impl Running + ?Sized>,
) -> String {
    let window = &submission.window;
    let frames = window.times.len();
    let ends = match (window.times.first(), window.times.last()) {
        (Some(start), Some(end)) => format!("{start} to {end}"),
        _ => "no frames".into(),
    };
    let came = match answer {
        Ok(seen) => format!("both {}", told(seen)),
        Err(what) => format!(
            "DIFFERS: {what}\n    ours {}\n    Rust {}",
            state(both.ours.words()),
            state(&both.theirs.state())
        ),
    };
    format!(
        "  {number} {} [frames {frames}, {ends}, bands {}, clock {}, {:?}]\n    {came}\n",
        submission.shows, window.bands, submission.clock, submission.lent
    )
}

fn told(seen: &Seen) -> String {
    let Some(snapshot) = &seen.snapshot else {
        return format!("refused {}", seen.code);
    };
    let jump = seen
        .jump
        .map_or(String::new(), |jump| format!("jump {jump:?}, "));
    let code = if seen.code == 0 {
        "computed"
    } else {
        "re-read"
    };
    let track = |track: Option<[f64; 4]>| track.map_or("-".into(), |t| format!("{t:?}"));
    format!(
        "{jump}{code}, {}, pending {}, accepted {}, search {}; kinds {:?}",
        shown(snapshot),
        track(seen.after.pending),
        track(seen.after.accepted),
        seen.after.last_global_search_ms,
        kinds::of(seen),
    )
}

fn shown(snapshot: &Snapshot) -> String {
    let diagnostics = &snapshot.diagnostics;
    let spectral = &diagnostics.spectral;
    let candidates: Vec<String> = diagnostics
        .candidates
        .iter()
        .map(|c| format!("{:.4} at {}", c.combined_dense_score, c.offset_ms))
        .collect();
    format!(
        "{:?} {:?} {:?}, confidence {}, innovation {:?}, coast {}, fresh {}, whole {}, margin {}, halves {:.4} {:.4} recent {:.4}, candidates [{}]",
        snapshot.state,
        snapshot.phase,
        snapshot.withhold_reason,
        snapshot.confidence,
        diagnostics.track_innovation_ms,
        spectral.coast_ms,
        spectral.fresh_evidence_ms,
        spectral.global_search,
        diagnostics.dense_margin,
        spectral.first_half_correlation,
        spectral.second_half_correlation,
        spectral.recent_correlation,
        candidates.join(", "),
    )
}

/// A state's words from the lock on, without the last snapshot's.
fn state(words: &[u64]) -> String {
    let shown = |word: usize| {
        format!(
            "{} {:?}",
            words::state_name(word),
            f64::from_bits(words[word])
        )
    };
    let all: Vec<String> = (place::PENDING..place::LAST_SNAPSHOT).map(shown).collect();
    all.join(", ")
}
