//! Document 01 in the driver's own reading, from its words and not from the port: what is refused,
//! what is a jump and what a re-reading, and the support age.

use super::session::{index_lengths, work_lengths, Opening, Settings};
use super::words::MOST_CANDIDATES;
use crate::sessions::session::Window;
use sonalign::running::Kept;
use sonalign::types::{Configuration, Snapshot, State};

const FARTHEST: f64 = 1e12;
const FARTHEST_TRACK: f64 = 1e13;

/// What comes with a window: the clock reading, and the lengths of the buffers lent.
#[derive(Clone, Copy, Debug)]
pub struct Handed<'a> {
    pub window: &'a Window,
    pub clock: f64,
    pub index: [usize; 4],
    pub work: [usize; 2],
}

// ---- opening

/// The number of the first refusal that applies, given the index buffers' lengths.
pub fn opening_refusal(opening: &Opening, lent: [usize; 4]) -> Option<u32> {
    let reference = &opening.reference;
    let (frames, bands) = (reference.times.len(), reference.bands);
    let too_far = |time: &f64| time.is_finite() && time.abs() > FARTHEST;
    if !is_valid(&opening.configuration) {
        Some(1)
    } else if !is_hop(opening.hop) {
        Some(2)
    } else if frames > 65_535 || bands > 64 {
        Some(3)
    } else if reference.values.len() != frames * bands {
        Some(4)
    } else if reference.times.iter().any(too_far) {
        Some(5)
    } else if is_short(lent, index_lengths(frames, bands)) {
        Some(6)
    } else {
        None
    }
}

/// Whether the matcher takes the reference: an engine without index is opened for any other.
pub fn is_accepted(opening: &Opening) -> bool {
    let reference = &opening.reference;
    let valid = |value: &f32| value.is_finite() && *value >= 0.0;
    reference.bands > 0
        && is_regular(&reference.times, opening.hop)
        && reference.values.iter().all(valid)
}

fn is_valid(configuration: &Configuration) -> bool {
    let duration = |ms: f64| ms.is_finite() && ms > 0.0;
    let fraction = configuration.minimum_active_frame_fraction;
    duration(configuration.minimum_readiness_duration_ms)
        && duration(configuration.tracking_query_duration_ms)
        && configuration.minimum_active_frame_energy_dbfs.is_finite()
        && configuration.minimum_average_energy_dbfs.is_finite()
        && (0.0..=1.0).contains(&fraction)
}

fn is_hop(hop: f64) -> bool {
    (1.0..=1_000.0).contains(&hop)
}

fn is_short<const N: usize>(lent: [usize; N], needed: [usize; N]) -> bool {
    lent.iter().zip(needed).any(|(&lent, needed)| lent < needed)
}

// ---- submission

/// The number of the first refusal that applies.
pub fn submission_refusal(settings: &Settings, kept: &Kept, handed: &Handed) -> Option<u32> {
    if !is_state(settings, kept) {
        return Some(7);
    }
    let window = handed.window;
    let (frames, bands) = (window.times.len(), window.bands);
    let near = |time: &f64| time.is_finite() && time.abs() <= FARTHEST;
    let heard = |energy: &f64| !energy.is_nan() && *energy != f64::INFINITY;
    if is_short(handed.index, index_lengths(settings.frames, settings.bands)) {
        Some(6)
    } else if !handed.clock.is_finite() {
        Some(8)
    } else if frames == 0 {
        Some(9)
    } else if frames > 1_024 || bands > 64 {
        Some(10)
    } else if !window.is_well_formed() {
        Some(11)
    } else if !window.times.iter().all(near) || !window.energies.iter().all(heard) {
        Some(12)
    } else if is_short(handed.work, work_lengths(bands, frames, settings.frames)) {
        Some(13)
    } else {
        None
    }
}

/// Whether refusal 7 lets the state pass.
pub fn is_state(settings: &Settings, kept: &Kept) -> bool {
    let near = |time: f64| time.is_finite() && time.abs() <= FARTHEST;
    let search = kept.last_global_search_ms;
    is_valid(&settings.configuration)
        && is_hop(settings.hop)
        && settings.frames <= 65_535
        && settings.bands <= 64
        && (settings.frames == 0) == (settings.bands == 0)
        && near(settings.start)
        && kept.last_endpoint_ms.is_none_or(near)
        && (near(search) || search == f64::NEG_INFINITY)
        && are_finite(kept.milestones)
        && kept.pending.is_none_or(are_track_numbers)
        && kept.accepted.is_none_or(are_track_numbers)
        && kept.last_snapshot.as_ref().is_none_or(is_snapshot)
}

fn is_snapshot(snapshot: &Snapshot) -> bool {
    snapshot.diagnostics.candidates.len() <= MOST_CANDIDATES
        && snapshot.estimate.as_ref().is_none_or(|e| {
            are_track_numbers([
                e.query_endpoint_recorded_time_ms,
                e.reference_time_ms,
                e.offset_ms,
            ])
        })
        && are_finite([
            snapshot.first_provisional_lock_elapsed_ms,
            snapshot.confirmed_lock_elapsed_ms,
            snapshot.final_lock_elapsed_ms,
        ])
}

fn are_finite(readings: [Option<f64>; 3]) -> bool {
    readings.into_iter().flatten().all(f64::is_finite)
}

fn are_track_numbers<const N: usize>(numbers: [f64; N]) -> bool {
    numbers
        .into_iter()
        .all(|x| x.is_finite() && x.abs() <= FARTHEST_TRACK)
}

// ---- jumps and re-readings

#[derive(Clone, Copy, Debug, PartialEq)]
pub enum Jump {
    Back,
    On,
}

/// Of a window that is not refused.
pub fn jump(settings: &Settings, kept: &Kept, window: &Window) -> Option<Jump> {
    let last = kept.last_endpoint_ms?;
    let (start, endpoint) = ends(window)?;
    if endpoint < last {
        Some(Jump::Back)
    } else if start > last + 2.0 * settings.hop {
        Some(Jump::On)
    } else {
        None
    }
}

/// Of a window that is not refused.
pub fn is_reread(settings: &Settings, kept: &Kept, window: &Window) -> bool {
    let (Some(last), Some((_, endpoint))) = (kept.last_endpoint_ms, ends(window)) else {
        return false;
    };
    kept.last_snapshot.is_some()
        && jump(settings, kept, window).is_none()
        && endpoint - last < 90.0
        && (settings.frames == 0 || is_timeline(settings, window))
}

fn ends(window: &Window) -> Option<(f64, f64)> {
    Some((*window.times.first()?, *window.times.last()?))
}

/// Whether a state with an index accepts the window's timeline.
pub fn is_timeline(settings: &Settings, window: &Window) -> bool {
    window.bands == settings.bands && is_regular(&window.times, settings.hop)
}

fn is_regular(times: &[f64], hop: f64) -> bool {
    let off = |distance: f64| distance.abs() < hop * 0.05;
    times.len() >= 2
        && times.iter().all(|time| time.is_finite())
        && times.windows(2).all(|pair| off(pair[1] - pair[0] - hop))
        && times
            .iter()
            .enumerate()
            .all(|(i, &time)| off(time - (times[0] + i as f64 * hop)))
}

// ---- support age

/// The coast of the last computed snapshot, or nothing if that was not Locked or none exists.
pub fn support_age(kept: &Kept) -> Option<f64> {
    let snapshot = kept.last_snapshot.as_ref()?;
    (snapshot.state == State::Locked).then_some(snapshot.diagnostics.spectral.coast_ms)
}
