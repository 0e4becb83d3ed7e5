//! What is handed in and what is answered, with sonalign's names: frames and windows, the
//! configuration, the snapshot and its parts.

use std::error::Error;
use std::fmt;

/// The sound features of one short stretch of recorded sound.
#[derive(Debug, Clone, PartialEq)]
pub struct FeatureFrame {
    /// When the stretch ends, on the recording's own time.
    pub recorded_time_ms: f64,
    /// Its loudness; minus infinity for silence.
    pub energy_dbfs: f64,
    /// A value for each band.
    pub pcen_mel: Vec<f32>,
}

/// At least one frame, all with the same bands and with numbers in range.
#[derive(Debug, Clone, PartialEq)]
pub struct FeatureWindow {
    frames: Vec<FeatureFrame>,
    start_recorded_time_ms: f64,
    endpoint_recorded_time_ms: f64,
}

impl FeatureWindow {
    /// Takes frames over once they are found to be without fault.
    ///
    /// # Errors
    /// No frames; no bands, frames whose bands differ in number, or a value that is negative or not
    /// finite; a time that is not finite, or an energy that is NaN or plus infinity.
    pub fn new(frames: Vec<FeatureFrame>) -> Result<Self, InputError> {
        let (Some(first), Some(last)) = (frames.first(), frames.last()) else {
            return Err(InputError("feature window is empty"));
        };
        let bands = first.pcen_mel.len();
        if bands == 0 || !frames.iter().all(|frame| frame.has_values(bands)) {
            return Err(InputError(
                "PCEN frames must have matching nonempty bands and finite nonnegative values",
            ));
        }
        if !frames.iter().all(FeatureFrame::has_time_and_energy) {
            return Err(InputError(
                "timestamps must be finite and energies cannot be NaN or +infinity",
            ));
        }
        Ok(Self {
            start_recorded_time_ms: first.recorded_time_ms,
            endpoint_recorded_time_ms: last.recorded_time_ms,
            frames,
        })
    }

    /// The frames, in their order.
    pub fn frames(&self) -> &[FeatureFrame] {
        &self.frames
    }

    /// The time of the first frame.
    pub fn start_recorded_time_ms(&self) -> f64 {
        self.start_recorded_time_ms
    }

    /// The time of the last frame.
    pub fn endpoint_recorded_time_ms(&self) -> f64 {
        self.endpoint_recorded_time_ms
    }

    /// From the first frame's time to the last's.
    pub fn duration_ms(&self) -> f64 {
        self.endpoint_recorded_time_ms - self.start_recorded_time_ms
    }

    /// The same in every frame.
    pub(crate) fn bands(&self) -> usize {
        self.frames[0].pcen_mel.len()
    }
}

impl FeatureFrame {
    fn has_values(&self, bands: usize) -> bool {
        let valid = |value: &f32| value.is_finite() && *value >= 0.0;
        self.pcen_mel.len() == bands && self.pcen_mel.iter().all(valid)
    }

    fn has_time_and_energy(&self) -> bool {
        self.recorded_time_ms.is_finite() && self.energy_dbfs < f64::INFINITY
    }
}

/// Why frames make no window, or a configuration is none, in sonalign's words.
#[derive(Debug, Clone, Copy, PartialEq)]
pub struct InputError(
    /// The words.
    pub &'static str,
);

impl fmt::Display for InputError {
    fn fmt(&self, f: &mut fmt::Formatter<'_>) -> fmt::Result {
        f.write_str(self.0)
    }
}

impl Error for InputError {}

/// What a window needs to be searched for.
#[derive(Debug, Clone, Copy, PartialEq)]
pub struct Configuration {
    /// How long a window has to be before the first lock.
    pub minimum_readiness_duration_ms: f64,
    /// After it, this less a hop is long enough, where that is shorter.
    pub tracking_query_duration_ms: f64,
    /// From this energy on a frame is active.
    pub minimum_active_frame_energy_dbfs: f64,
    /// The least mean energy of a window.
    pub minimum_average_energy_dbfs: f64,
    /// The least part of its frames that is active, from 0 to 1.
    pub minimum_active_frame_fraction: f64,
}

impl Default for Configuration {
    fn default() -> Self {
        Self {
            minimum_readiness_duration_ms: 2_500.0,
            tracking_query_duration_ms: 2_000.0,
            minimum_active_frame_energy_dbfs: -70.0,
            minimum_average_energy_dbfs: -62.0,
            minimum_active_frame_fraction: 0.35,
        }
    }
}

impl Configuration {
    /// Whether an engine can be opened with it.
    ///
    /// # Errors
    /// A duration that is not finite or not above 0, an energy that is not finite, a fraction that
    /// is not from 0 to 1.
    pub fn validate(&self) -> Result<(), InputError> {
        let is_duration = |ms: f64| ms.is_finite() && ms > 0.0;
        let valid = is_duration(self.minimum_readiness_duration_ms)
            && is_duration(self.tracking_query_duration_ms)
            && self.minimum_active_frame_energy_dbfs.is_finite()
            && self.minimum_average_energy_dbfs.is_finite()
            && (0.0..=1.0).contains(&self.minimum_active_frame_fraction);
        if valid {
            Ok(())
        } else {
            Err(InputError("invalid engine configuration"))
        }
    }
}

/// How the engine stands after a window. Ready, Confirmed and Drifting are never answered.
#[derive(Debug, Clone, Copy, PartialEq, Eq)]
pub enum State {
    /// Nothing was heard yet.
    Ready,
    /// Before the first lock, a window that cannot be searched for.
    Listening,
    /// Before the first lock, searching. A place that is shown is a guess.
    Locking,
    /// A lock that is not final.
    Confirmed,
    /// The place shown is that of a chain of evidence.
    Locked,
    /// A lock that moves.
    Drifting,
    /// After a lock that was given up, searching.
    Relocking,
    /// After a lock, a window that cannot be searched for.
    Lost,
    /// There is no index: the reference cannot be searched.
    Failed,
}

/// How far the engine has come at any time since it was opened. Confirmed is never answered.
#[derive(Debug, Clone, Copy, PartialEq, Eq)]
pub enum LockPhase {
    /// No search has passed yet.
    None,
    /// A search of the whole reference has passed.
    Provisional,
    /// A lock that was not final.
    Confirmed,
    /// There was a lock.
    Final,
}

/// What was done for a window: [`Stage::Readiness`], [`Stage::RobustVerify`] or
/// [`Stage::Tracking`]. The others are never answered.
#[derive(Debug, Clone, Copy, PartialEq, Eq)]
pub enum Stage {
    /// The whole reference was not searched, and no track is shown.
    Readiness,
    /// A rough search.
    LandmarkCoarse,
    /// A quick check of a place.
    FastTimingVerify,
    /// The whole reference was searched, and no track is shown.
    RobustVerify,
    /// A track is shown.
    Tracking,
    /// A search after a loss.
    Relock,
}

/// Why no place is shown, or one without support. InsufficientLandmarkEvidence,
/// UnstableTrackingResidual and DecodeFailed are never answered.
#[derive(Debug, Clone, Copy, PartialEq, Eq)]
pub enum WithholdReason {
    /// The window is shorter than the configuration asks.
    InsufficientDuration,
    /// The window's mean energy is below the configuration's.
    InsufficientEnergy,
    /// Fewer of the window's frames are active than the configuration asks.
    InsufficientActiveFrames,
    /// Too few landmarks.
    InsufficientLandmarkEvidence,
    /// No search supports a place.
    WeakAlignmentPeak,
    /// The best two places score nearly the same.
    AmbiguousOffset,
    /// A track that jitters.
    UnstableTrackingResidual,
    /// The window's times do not follow the hop, or its bands are not the reference's.
    LostSignal,
    /// No features.
    DecodeFailed,
    /// The reference cannot be searched.
    IndexUnavailable,
}

/// A place in the reference.
#[derive(Debug, Clone, PartialEq)]
pub struct Estimate {
    /// The window's endpoint.
    pub query_endpoint_recorded_time_ms: f64,
    /// The reference's time at that endpoint.
    pub reference_time_ms: f64,
    /// The reference's time less the recorded.
    pub offset_ms: f64,
}

/// What the last search for a window found. Correlations are the best candidate's, 0 without one.
#[derive(Debug, Clone, PartialEq)]
pub struct SpectralDiagnostics {
    /// Whether it searched the whole reference.
    pub global_search: bool,
    /// Over the whole window.
    pub correlation: f64,
    /// The best score less the second, of a search of the whole reference.
    pub competing_peak_margin: Option<f64>,
    /// Over the window's first half.
    pub first_half_correlation: f64,
    /// Over its second half.
    pub second_half_correlation: f64,
    /// Over its last second.
    pub recent_correlation: f64,
    /// From the first to the last passing search at the pending place.
    pub fresh_evidence_ms: f64,
    /// How long a lock has been without support, from 0 to 1,500.
    pub coast_ms: f64,
}

/// A place that a search found.
#[derive(Debug, Clone, PartialEq)]
pub struct CandidateDiagnostics {
    /// The reference's time less the recorded.
    pub offset_ms: f64,
    /// The same number.
    pub coarse_offset_ms: f64,
    /// The window's frames without the 250 ms at either end.
    pub comparable_frame_count: usize,
    /// The window's duration without 500 ms, as a part of it.
    pub coverage_ratio: f64,
    /// The correlation there.
    pub combined_dense_score: f64,
}

/// How an answer came about.
#[derive(Debug, Clone, PartialEq)]
pub struct Diagnostics {
    /// The window's duration.
    pub query_duration_ms: f64,
    /// The part of its frames that is active, from 0 to 1.
    pub active_frame_fraction: f64,
    /// Whether a search of the whole reference found places that score nearly the same.
    pub coarse_ambiguous: bool,
    /// The margin of a search of the whole reference, else 0.
    pub dense_margin: f64,
    /// The innovation without its sign.
    pub offset_stability_ms: Option<f64>,
    /// How far the place found lay from the track that it supports.
    pub track_innovation_ms: Option<f64>,
    /// 1 with a track, else 0.
    pub track_count: usize,
    /// Whether a track is shown.
    pub offset_tracker_confirmed: bool,
    /// Whether it is shown without coast.
    pub offset_tracker_stable: bool,
    /// At most 8, the best first.
    pub candidates: Vec<CandidateDiagnostics>,
    /// What the search found.
    pub spectral: SpectralDiagnostics,
}

/// The answer to a window.
#[derive(Debug, Clone, PartialEq)]
pub struct Snapshot {
    /// How the engine stands.
    pub state: State,
    /// How far it has come at any time.
    pub phase: LockPhase,
    /// What was done for the window.
    pub stage: Stage,
    /// The place, where one is shown.
    pub estimate: Option<Estimate>,
    /// Why there is none, or one without support.
    pub withhold_reason: Option<WithholdReason>,
    /// How well the place is supported, from 0 to 1; 0 without one.
    pub confidence: f64,
    /// How the answer came about.
    pub diagnostics: Diagnostics,
    /// The clock's reading at the first search that passed.
    pub first_provisional_lock_elapsed_ms: Option<f64>,
    /// The clock's reading at the first lock.
    pub confirmed_lock_elapsed_ms: Option<f64>,
    /// The same reading.
    pub final_lock_elapsed_ms: Option<f64>,
}

impl Snapshot {
    /// A snapshot of nothing, for [`try_process_into`](crate::Engine::try_process_into) to fill.
    /// sonalign has no such function.
    pub fn blank() -> Self {
        crate::words::snapshot(&[0; crate::words::SHOWN], Vec::new())
    }
}
