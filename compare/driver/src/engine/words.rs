//! State and snapshot of the Rust as the port's words: a layout number, then a word a number.

use super::session::Settings;
use sonalign::running::{Kept, Track};
use sonalign::types::{
    CandidateDiagnostics, Diagnostics, Estimate, LockPhase, Snapshot, SpectralDiagnostics, Stage,
    State, WithholdReason,
};
use std::ops::Range;

pub const LAYOUT: u64 = 1;
pub const STATE: usize = 106;
pub const SNAPSHOT: usize = 77;
pub const MOST_CANDIDATES: usize = 8;
/// Of a store, and how many words it has.
pub const PLACES: usize = 8;
pub const STORE: usize = PLACES * STATE;

/// What stands where.
pub mod place {
    pub const CONFIGURATION: usize = 1;
    pub const HOP: usize = 6;
    pub const FRAMES: usize = 7;
    pub const BANDS: usize = 8;
    pub const START: usize = 9;
    pub const PENDING: usize = 10;
    pub const ACCEPTED: usize = 15;
    pub const SEARCH: usize = 20;
    pub const MILESTONES: usize = 21;
    pub const ENDPOINT: usize = 27;
    pub const HAS_SNAPSHOT: usize = 29;
    pub const LAST_SNAPSHOT: usize = 30;
    /// Within a snapshot's own words.
    pub const ESTIMATE: usize = 3;
    pub const CANDIDATE_COUNT: usize = 20;
    pub const SNAPSHOT_MILESTONES: usize = 70;
}

/// Where a store keeps what is under a name from 1 to 8.
pub fn under(name: usize) -> Range<usize> {
    (name - 1) * STATE..name * STATE
}

/// NaNs are all the same, and written as one.
pub fn float(x: f64) -> u64 {
    if x.is_nan() {
        0x7ff8_0000_0000_0000
    } else {
        x.to_bits()
    }
}

pub fn state(settings: &Settings, kept: &Kept) -> Vec<u64> {
    let mut words = Words(vec![LAYOUT]);
    words.settings(settings);
    words.track(&kept.pending);
    words.track(&kept.accepted);
    words.float(kept.last_global_search_ms);
    words.milestones(kept.milestones);
    words.maybe(kept.last_endpoint_ms);
    words.flag(kept.last_snapshot.is_some());
    if let Some(snapshot) = &kept.last_snapshot {
        words.snapshot(snapshot);
    }
    words.0.resize(STATE, 0);
    words.0
}

/// As the words of a buffer of its own.
pub fn snapshot(snapshot: &Snapshot) -> Vec<u64> {
    let mut words = Words(vec![LAYOUT]);
    words.snapshot(snapshot);
    words.0
}

struct Words(Vec<u64>);

impl Words {
    fn float(&mut self, x: f64) {
        self.0.push(float(x));
    }

    fn flag(&mut self, x: bool) {
        self.0.push(u64::from(x));
    }

    fn count(&mut self, x: usize) {
        self.0.push(x as u64);
    }

    fn numbers<const N: usize>(&mut self, there: Option<[f64; N]>) {
        self.flag(there.is_some());
        self.0.extend(there.map_or([0; N], |all| all.map(float)));
    }

    fn maybe(&mut self, x: Option<f64>) {
        self.numbers(x.map(|x| [x]));
    }

    fn track(&mut self, track: &Option<Track>) {
        self.numbers(*track);
    }

    fn milestones(&mut self, readings: [Option<f64>; 3]) {
        for reading in readings {
            self.maybe(reading);
        }
    }

    fn settings(&mut self, settings: &Settings) {
        let configuration = &settings.configuration;
        self.float(configuration.minimum_readiness_duration_ms);
        self.float(configuration.tracking_query_duration_ms);
        self.float(configuration.minimum_active_frame_energy_dbfs);
        self.float(configuration.minimum_average_energy_dbfs);
        self.float(configuration.minimum_active_frame_fraction);
        self.float(settings.hop);
        self.count(settings.frames);
        self.count(settings.bands);
        self.float(settings.start);
    }

    fn snapshot(&mut self, snapshot: &Snapshot) {
        self.0.push(snapshot.state as u64);
        self.0.push(snapshot.phase as u64);
        self.0.push(snapshot.stage as u64);
        let estimate = snapshot.estimate.as_ref();
        self.numbers(estimate.map(|e| {
            [
                e.query_endpoint_recorded_time_ms,
                e.reference_time_ms,
                e.offset_ms,
            ]
        }));
        // The port's `None` comes first.
        let reason = snapshot.withhold_reason;
        self.0.push(reason.map_or(0, |reason| reason as u64 + 1));
        self.float(snapshot.confidence);
        self.diagnostics(&snapshot.diagnostics);
        self.milestones([
            snapshot.first_provisional_lock_elapsed_ms,
            snapshot.confirmed_lock_elapsed_ms,
            snapshot.final_lock_elapsed_ms,
        ]);
    }

    fn diagnostics(&mut self, d: &Diagnostics) {
        self.float(d.query_duration_ms);
        self.float(d.active_frame_fraction);
        self.flag(d.coarse_ambiguous);
        self.float(d.dense_margin);
        self.maybe(d.offset_stability_ms);
        self.maybe(d.track_innovation_ms);
        self.count(d.track_count);
        self.flag(d.offset_tracker_confirmed);
        self.flag(d.offset_tracker_stable);
        self.count(d.candidates.len());
        for place in 0..MOST_CANDIDATES {
            self.candidate(d.candidates.get(place));
        }
        let spectral = &d.spectral;
        self.flag(spectral.global_search);
        self.float(spectral.correlation);
        self.maybe(spectral.competing_peak_margin);
        self.float(spectral.first_half_correlation);
        self.float(spectral.second_half_correlation);
        self.float(spectral.recent_correlation);
        self.float(spectral.fresh_evidence_ms);
        self.float(spectral.coast_ms);
    }

    /// Zeros behind the last.
    fn candidate(&mut self, candidate: Option<&CandidateDiagnostics>) {
        let Some(c) = candidate else {
            self.0.extend([0; 5]);
            return;
        };
        self.float(c.offset_ms);
        self.float(c.coarse_offset_ms);
        self.count(c.comparable_frame_count);
        self.float(c.coverage_ratio);
        self.float(c.combined_dense_score);
    }
}

// ---- back from words

/// What a state's words keep.
pub fn kept(words: &[u64]) -> Kept {
    use place::*;
    let has_snapshot = words[HAS_SNAPSHOT] == 1;
    Kept {
        pending: numbers(&words[PENDING..]),
        accepted: numbers(&words[ACCEPTED..]),
        last_global_search_ms: f64::from_bits(words[SEARCH]),
        milestones: milestones(&words[MILESTONES..]),
        last_endpoint_ms: maybe(&words[ENDPOINT..]),
        last_snapshot: has_snapshot.then(|| snapshot_of(&words[LAST_SNAPSHOT..])),
    }
}

fn numbers<const N: usize>(words: &[u64]) -> Option<[f64; N]> {
    (words[0] == 1).then(|| std::array::from_fn(|i| f64::from_bits(words[1 + i])))
}

fn maybe(words: &[u64]) -> Option<f64> {
    numbers::<1>(words).map(|[x]| x)
}

fn milestones(words: &[u64]) -> [Option<f64>; 3] {
    std::array::from_fn(|i| maybe(&words[2 * i..]))
}

/// Of a snapshot's own words.
pub fn snapshot_of(words: &[u64]) -> Snapshot {
    let float = |word: usize| f64::from_bits(words[word]);
    let flag = |word: usize| words[word] == 1;
    let [first, second, third] = milestones(&words[place::SNAPSHOT_MILESTONES..]);
    Snapshot {
        state: STATES[words[0] as usize],
        phase: PHASES[words[1] as usize],
        stage: STAGES[words[2] as usize],
        estimate: numbers(&words[place::ESTIMATE..]).map(|[endpoint, reference, offset]| {
            Estimate {
                query_endpoint_recorded_time_ms: endpoint,
                reference_time_ms: reference,
                offset_ms: offset,
            }
        }),
        withhold_reason: words[7].checked_sub(1).map(|place| REASONS[place as usize]),
        confidence: float(8),
        diagnostics: Diagnostics {
            query_duration_ms: float(9),
            active_frame_fraction: float(10),
            coarse_ambiguous: flag(11),
            dense_margin: float(12),
            offset_stability_ms: maybe(&words[13..]),
            track_innovation_ms: maybe(&words[15..]),
            track_count: words[17] as usize,
            offset_tracker_confirmed: flag(18),
            offset_tracker_stable: flag(19),
            candidates: candidates_of(words),
            spectral: SpectralDiagnostics {
                global_search: flag(61),
                correlation: float(62),
                competing_peak_margin: maybe(&words[63..]),
                first_half_correlation: float(65),
                second_half_correlation: float(66),
                recent_correlation: float(67),
                fresh_evidence_ms: float(68),
                coast_ms: float(69),
            },
        },
        first_provisional_lock_elapsed_ms: first,
        confirmed_lock_elapsed_ms: second,
        final_lock_elapsed_ms: third,
    }
}

fn candidates_of(words: &[u64]) -> Vec<CandidateDiagnostics> {
    let float = |word: usize| f64::from_bits(words[word]);
    let candidate = |place: usize| {
        let at = 21 + 5 * place;
        CandidateDiagnostics {
            offset_ms: float(at),
            coarse_offset_ms: float(at + 1),
            comparable_frame_count: words[at + 2] as usize,
            coverage_ratio: float(at + 3),
            combined_dense_score: float(at + 4),
        }
    };
    let count = words[place::CANDIDATE_COUNT] as usize;
    (0..count.min(MOST_CANDIDATES)).map(candidate).collect()
}

/// In the order of their words.
pub const STATES: [State; 9] = [
    State::Ready,
    State::Listening,
    State::Locking,
    State::Confirmed,
    State::Locked,
    State::Drifting,
    State::Relocking,
    State::Lost,
    State::Failed,
];
pub const PHASES: [LockPhase; 4] = [
    LockPhase::None,
    LockPhase::Provisional,
    LockPhase::Confirmed,
    LockPhase::Final,
];
pub const STAGES: [Stage; 6] = [
    Stage::Readiness,
    Stage::LandmarkCoarse,
    Stage::FastTimingVerify,
    Stage::RobustVerify,
    Stage::Tracking,
    Stage::Relock,
];
pub const REASONS: [WithholdReason; 10] = [
    WithholdReason::InsufficientDuration,
    WithholdReason::InsufficientEnergy,
    WithholdReason::InsufficientActiveFrames,
    WithholdReason::InsufficientLandmarkEvidence,
    WithholdReason::WeakAlignmentPeak,
    WithholdReason::AmbiguousOffset,
    WithholdReason::UnstableTrackingResidual,
    WithholdReason::LostSignal,
    WithholdReason::DecodeFailed,
    WithholdReason::IndexUnavailable,
];

// ---- names

/// The name of a state's word, for a report.
pub fn state_name(word: usize) -> String {
    use place::*;
    let fields = [
        (0, "layout"),
        (CONFIGURATION, "configuration"),
        (HOP, "hop"),
        (FRAMES, "frames"),
        (BANDS, "bands"),
        (START, "start"),
        (PENDING, "pending"),
        (ACCEPTED, "accepted"),
        (SEARCH, "search time"),
        (MILESTONES, "milestones"),
        (ENDPOINT, "endpoint"),
        (HAS_SNAPSHOT, "has snapshot"),
    ];
    if word >= LAST_SNAPSHOT {
        return format!("last snapshot's {}", snapshot_name(word - LAST_SNAPSHOT));
    }
    named(&fields, word)
}

/// The name of a store's word.
pub fn store_name(word: usize) -> String {
    match word / STATE {
        PLACES.. => format!("word {} behind the store", word - STORE),
        place => format!("under {}: {}", place + 1, state_name(word % STATE)),
    }
}

/// The name of a snapshot's word, counted without the layout number.
pub fn snapshot_name(word: usize) -> String {
    let fields = [
        (0, "state"),
        (1, "phase"),
        (2, "stage"),
        (place::ESTIMATE, "estimate"),
        (7, "withhold reason"),
        (8, "confidence"),
        (9, "query duration"),
        (10, "active fraction"),
        (11, "coarse ambiguous"),
        (12, "dense margin"),
        (13, "offset stability"),
        (15, "track innovation"),
        (17, "track count"),
        (18, "tracker confirmed"),
        (19, "tracker stable"),
        (place::CANDIDATE_COUNT, "candidate count"),
        (21, "candidates"),
        (61, "global search"),
        (62, "correlation"),
        (63, "competing margin"),
        (65, "first half"),
        (66, "second half"),
        (67, "recent"),
        (68, "fresh evidence"),
        (69, "coast"),
        (place::SNAPSHOT_MILESTONES, "milestones"),
    ];
    named(&fields, word)
}

fn named(fields: &[(usize, &str)], word: usize) -> String {
    let last = fields.iter().rev().find(|(from, _)| *from <= word);
    last.map_or_else(String::new, |(from, name)| {
        format!("{name} [{}]", word - from)
    })
}

#[cfg(test)]
mod tests {
    use super::*;

    fn settings() -> Settings {
        Settings {
            configuration: sonalign::types::Configuration::default(),
            hop: 20.0,
            frames: 40,
            bands: 2,
            start: -5.0,
        }
    }

    /// Different numbers in all places, so that two that change places show.
    fn filled() -> Vec<u64> {
        let mut words: Vec<u64> = (0..STATE as u64).map(|n| float(n as f64 + 0.5)).collect();
        let tags = [
            place::PENDING,
            place::ACCEPTED,
            place::MILESTONES,
            place::MILESTONES + 2,
            place::MILESTONES + 4,
            place::ENDPOINT,
            place::HAS_SNAPSHOT,
        ];
        let in_snapshot = [3, 11, 13, 15, 18, 19, 61, 63, 70, 72, 74];
        for tag in tags {
            words[tag] = 1;
        }
        for tag in in_snapshot {
            words[place::LAST_SNAPSHOT + tag] = 1;
        }
        for (word, number) in [(0, 4), (1, 3), (2, 4), (7, 5), (17, 9), (20, 8)] {
            words[place::LAST_SNAPSHOT + word] = number;
        }
        for candidate in 0..MOST_CANDIDATES {
            words[place::LAST_SNAPSHOT + 23 + 5 * candidate] = candidate as u64;
        }
        words
    }

    #[test]
    fn words_are_read_as_they_are_written() {
        let words = filled();
        let written = state(&settings(), &kept(&words));
        assert_eq!(written.len(), STATE);
        assert_eq!(written[place::PENDING..], words[place::PENDING..]);
        let shown = kept(&words).last_snapshot.map(|last| snapshot(&last));
        let expected = [&[LAYOUT], &words[place::LAST_SNAPSHOT..]].concat();
        assert_eq!(shown, Some(expected));
        assert_eq!(snapshot(&snapshot_of(&[0; 76])).len(), SNAPSHOT);
    }

    #[test]
    fn a_fresh_state_has_few_words() {
        let words = state(&settings(), &Kept::FRESH);
        assert_eq!(words[0], LAYOUT);
        assert_eq!(words[place::HOP], float(20.0));
        assert_eq!(words[place::FRAMES..=place::BANDS], [40, 2]);
        assert_eq!(words[place::SEARCH], float(f64::NEG_INFINITY));
        let rest = words.len() - place::MILESTONES;
        assert_eq!(words[place::MILESTONES..], vec![0; rest]);
    }

    #[test]
    fn places_lie_one_after_the_other() {
        assert_eq!(under(1), 0..106);
        assert_eq!(under(8), 742..848);
        assert_eq!(store_name(0), "under 1: layout [0]");
        assert_eq!(store_name(847), "under 8: last snapshot's milestones [5]");
        assert_eq!(store_name(849), "word 1 behind the store");
    }

    #[test]
    fn enums_stand_in_their_order() {
        assert!(STATES.iter().enumerate().all(|(n, &s)| s as usize == n));
        assert!(PHASES.iter().enumerate().all(|(n, &s)| s as usize == n));
        assert!(STAGES.iter().enumerate().all(|(n, &s)| s as usize == n));
        assert!(REASONS.iter().enumerate().all(|(n, &s)| s as usize == n));
    }
}
