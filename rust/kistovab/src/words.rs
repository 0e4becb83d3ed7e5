//! State and snapshot as the library's words (crates/engine_layout/specs/Layout.antt): which words
//! hold what, and the types made of them.

use crate::types::{
    CandidateDiagnostics, Configuration, Diagnostics, Estimate, LockPhase, Snapshot,
    SpectralDiagnostics, Stage, State, WithholdReason,
};

/// The first word of a state and of a snapshot.
pub const LAYOUT: u64 = 1;
/// The words of a state.
pub const STATE: usize = 106;
/// The words of a snapshot, the layout's first.
pub const SNAPSHOT: usize = 1 + SHOWN;
/// Those that show something.
pub const SHOWN: usize = 76;
pub const MOST_CANDIDATES: usize = 8;

// ---- a state

pub fn configuration(state: &[u64; STATE]) -> Configuration {
    Configuration {
        minimum_readiness_duration_ms: float(state[1]),
        tracking_query_duration_ms: float(state[2]),
        minimum_active_frame_energy_dbfs: float(state[3]),
        minimum_average_energy_dbfs: float(state[4]),
        minimum_active_frame_fraction: float(state[5]),
    }
}

pub fn hop_ms(state: &[u64; STATE]) -> f64 {
    float(state[6])
}

/// 0 without index.
pub fn reference_frames(state: &[u64; STATE]) -> usize {
    state[7] as usize
}

/// 0 without index.
pub fn reference_bands(state: &[u64; STATE]) -> usize {
    state[8] as usize
}

/// The last computed one.
pub fn last_snapshot(state: &[u64; STATE]) -> Option<Snapshot> {
    let shown = state.last_chunk()?;
    flag(state[29]).then(|| snapshot(shown, Vec::new()))
}

// ---- a snapshot

/// What the words show; the candidates go into the vector given.
pub fn snapshot(words: &[u64; SHOWN], candidates: Vec<CandidateDiagnostics>) -> Snapshot {
    Snapshot {
        state: named(&STATES, words[0]),
        phase: named(&PHASES, words[1]),
        stage: named(&STAGES, words[2]),
        estimate: estimate(&words[3..]),
        withhold_reason: words[7].checked_sub(1).map(|n| named(&REASONS, n)),
        confidence: float(words[8]),
        diagnostics: diagnostics(words, candidates),
        first_provisional_lock_elapsed_ms: maybe(&words[70..]),
        confirmed_lock_elapsed_ms: maybe(&words[72..]),
        final_lock_elapsed_ms: maybe(&words[74..]),
    }
}

fn estimate(words: &[u64]) -> Option<Estimate> {
    flag(words[0]).then(|| Estimate {
        query_endpoint_recorded_time_ms: float(words[1]),
        reference_time_ms: float(words[2]),
        offset_ms: float(words[3]),
    })
}

fn diagnostics(words: &[u64; SHOWN], mut candidates: Vec<CandidateDiagnostics>) -> Diagnostics {
    let count = (words[20] as usize).min(MOST_CANDIDATES);
    candidates.clear();
    candidates.extend(words[21..61].chunks_exact(5).take(count).map(candidate));
    Diagnostics {
        query_duration_ms: float(words[9]),
        active_frame_fraction: float(words[10]),
        coarse_ambiguous: flag(words[11]),
        dense_margin: float(words[12]),
        offset_stability_ms: maybe(&words[13..]),
        track_innovation_ms: maybe(&words[15..]),
        track_count: words[17] as usize,
        offset_tracker_confirmed: flag(words[18]),
        offset_tracker_stable: flag(words[19]),
        candidates,
        spectral: spectral(&words[61..]),
    }
}

fn candidate(words: &[u64]) -> CandidateDiagnostics {
    CandidateDiagnostics {
        offset_ms: float(words[0]),
        coarse_offset_ms: float(words[1]),
        comparable_frame_count: words[2] as usize,
        coverage_ratio: float(words[3]),
        combined_dense_score: float(words[4]),
    }
}

fn spectral(words: &[u64]) -> SpectralDiagnostics {
    SpectralDiagnostics {
        global_search: flag(words[0]),
        correlation: float(words[1]),
        competing_peak_margin: maybe(&words[2..]),
        first_half_correlation: float(words[4]),
        second_half_correlation: float(words[5]),
        recent_correlation: float(words[6]),
        fresh_evidence_ms: float(words[7]),
        coast_ms: float(words[8]),
    }
}

// ---- one word

fn float(word: u64) -> f64 {
    f64::from_bits(word)
}

fn flag(word: u64) -> bool {
    word == 1
}

/// A tag and a number.
fn maybe(words: &[u64]) -> Option<f64> {
    flag(words[0]).then(|| float(words[1]))
}

/// The case of that number; one out of range is the last.
fn named<T: Copy>(all: &[T], word: u64) -> T {
    all[(word as usize).min(all.len() - 1)]
}

const STATES: [State; 9] = [
    State::Ready,
    State::Listening,
    State::Locking,
    State::Confirmed,
    State::Locked,
    State::Drifting,
    State::Relocking,
    State::Lost,
    State::Failed,
];
const PHASES: [LockPhase; 4] = [
    LockPhase::None,
    LockPhase::Provisional,
    LockPhase::Confirmed,
    LockPhase::Final,
];
const STAGES: [Stage; 6] = [
    Stage::Readiness,
    Stage::LandmarkCoarse,
    Stage::FastTimingVerify,
    Stage::RobustVerify,
    Stage::Tracking,
    Stage::Relock,
];
/// From word 1 on; 0 is none.
const REASONS: [WithholdReason; 10] = [
    WithholdReason::InsufficientDuration,
    WithholdReason::InsufficientEnergy,
    WithholdReason::InsufficientActiveFrames,
    WithholdReason::InsufficientLandmarkEvidence,
    WithholdReason::WeakAlignmentPeak,
    WithholdReason::AmbiguousOffset,
    WithholdReason::UnstableTrackingResidual,
    WithholdReason::LostSignal,
    WithholdReason::DecodeFailed,
    WithholdReason::IndexUnavailable,
];

#[cfg(test)]
mod tests {
    use super::*;

    /// Where a snapshot has a tag or a flag, and where a count or a case.
    const FLAGS: [usize; 11] = [3, 11, 13, 15, 18, 19, 61, 63, 70, 72, 74];
    const COUNTS: [usize; 6] = [0, 1, 2, 7, 17, 20];

    /// Words that all differ, but for the flags, which are set.
    fn filled() -> [u64; SHOWN] {
        let mut words = std::array::from_fn(|n| (n as f64 + 0.5).to_bits());
        for flag in FLAGS {
            words[flag] = 1;
        }
        for (count, number) in COUNTS.into_iter().zip([4, 3, 5, 6, 9, 8]) {
            words[count] = number;
        }
        for place in 0..MOST_CANDIDATES {
            words[23 + 5 * place] = 40 + place as u64;
        }
        words
    }

    struct Written(Vec<u64>);

    impl Written {
        fn float(&mut self, number: f64) {
            self.0.push(number.to_bits());
        }

        fn maybe(&mut self, number: Option<f64>) {
            self.0
                .extend([number.is_some() as u64, number.unwrap_or(0.0).to_bits()]);
        }

        fn snapshot(&mut self, s: &Snapshot) {
            self.0
                .extend([s.state as u64, s.phase as u64, s.stage as u64]);
            let estimate = s.estimate.as_ref();
            self.maybe(estimate.map(|e| e.query_endpoint_recorded_time_ms));
            self.float(estimate.map_or(0.0, |e| e.reference_time_ms));
            self.float(estimate.map_or(0.0, |e| e.offset_ms));
            self.0
                .push(s.withhold_reason.map_or(0, |reason| reason as u64 + 1));
            self.float(s.confidence);
            self.diagnostics(&s.diagnostics);
            self.maybe(s.first_provisional_lock_elapsed_ms);
            self.maybe(s.confirmed_lock_elapsed_ms);
            self.maybe(s.final_lock_elapsed_ms);
        }

        fn diagnostics(&mut self, d: &Diagnostics) {
            self.float(d.query_duration_ms);
            self.float(d.active_frame_fraction);
            self.0.push(d.coarse_ambiguous as u64);
            self.float(d.dense_margin);
            self.maybe(d.offset_stability_ms);
            self.maybe(d.track_innovation_ms);
            self.0.push(d.track_count as u64);
            self.0.push(d.offset_tracker_confirmed as u64);
            self.0.push(d.offset_tracker_stable as u64);
            self.0.push(d.candidates.len() as u64);
            for c in &d.candidates {
                self.float(c.offset_ms);
                self.float(c.coarse_offset_ms);
                self.0.push(c.comparable_frame_count as u64);
                self.float(c.coverage_ratio);
                self.float(c.combined_dense_score);
            }
            self.0.resize(61, 0);
            self.spectral(&d.spectral);
        }

        fn spectral(&mut self, s: &SpectralDiagnostics) {
            self.0.push(s.global_search as u64);
            self.float(s.correlation);
            self.maybe(s.competing_peak_margin);
            self.float(s.first_half_correlation);
            self.float(s.second_half_correlation);
            self.float(s.recent_correlation);
            self.float(s.fresh_evidence_ms);
            self.float(s.coast_ms);
        }
    }

    fn written(shown: &Snapshot) -> Vec<u64> {
        let mut words = Written(Vec::new());
        words.snapshot(shown);
        words.0
    }

    #[test]
    fn every_word_of_a_snapshot_is_read_where_it_stands() {
        let words = filled();
        assert_eq!(written(&snapshot(&words, Vec::new())), words);
    }

    #[test]
    fn nothing_is_read_of_what_is_absent() {
        let mut words = filled();
        for tag in [3, 13, 15, 63, 70, 72, 74] {
            words[tag] = 0;
        }
        words[7] = 0;
        words[20] = 2;
        let shown = snapshot(&words, vec![candidate(&[7; 5]); 5]);
        assert_eq!(shown.estimate, None);
        assert_eq!(shown.withhold_reason, None);
        assert_eq!(shown.diagnostics.offset_stability_ms, None);
        assert_eq!(shown.diagnostics.track_innovation_ms, None);
        assert_eq!(shown.diagnostics.spectral.competing_peak_margin, None);
        assert_eq!(shown.first_provisional_lock_elapsed_ms, None);
        assert_eq!(shown.confirmed_lock_elapsed_ms, None);
        assert_eq!(shown.final_lock_elapsed_ms, None);
        let offsets: Vec<f64> = shown
            .diagnostics
            .candidates
            .iter()
            .map(|c| c.offset_ms)
            .collect();
        assert_eq!(offsets, [21.5, 26.5]);
    }

    #[test]
    fn cases_stand_in_their_order() {
        assert!(STATES.iter().enumerate().all(|(n, &s)| s as usize == n));
        assert!(PHASES.iter().enumerate().all(|(n, &s)| s as usize == n));
        assert!(STAGES.iter().enumerate().all(|(n, &s)| s as usize == n));
        assert!(REASONS.iter().enumerate().all(|(n, &s)| s as usize == n));
        assert_eq!(named(&STATES, u64::MAX), State::Failed);
    }

    #[test]
    fn a_state_is_read_where_it_stands() {
        let mut words: [u64; STATE] = std::array::from_fn(|n| (n as f64 + 0.5).to_bits());
        (words[7], words[8], words[29]) = (700, 3, 0);
        words[30..].copy_from_slice(&filled());
        let read = configuration(&words);
        assert_eq!(read.minimum_readiness_duration_ms, 1.5);
        assert_eq!(read.tracking_query_duration_ms, 2.5);
        assert_eq!(read.minimum_active_frame_energy_dbfs, 3.5);
        assert_eq!(read.minimum_average_energy_dbfs, 4.5);
        assert_eq!(read.minimum_active_frame_fraction, 5.5);
        assert_eq!(hop_ms(&words), 6.5);
        assert_eq!(
            (reference_frames(&words), reference_bands(&words)),
            (700, 3)
        );
        assert_eq!(last_snapshot(&words), None);
        words[29] = 1;
        assert_eq!(last_snapshot(&words), Some(snapshot(&filled(), Vec::new())));
    }
}
