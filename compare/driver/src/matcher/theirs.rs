//! The Rust's matcher, in the port's terms.

use super::case::{Candidate, Frames};
use sonalign::matcher::{Bands, MatchResult, SpectralMatcher};
use sonalign::{own, FeatureFrame, FeatureWindow};

pub struct Matcher(SpectralMatcher);

impl Matcher {
    pub fn new(reference: &Frames, hop: f64) -> Option<Self> {
        Self::of(&frames(reference), hop)
    }

    pub fn of(frames: &[FeatureFrame], hop: f64) -> Option<Self> {
        SpectralMatcher::new(frames, hop).map(Self)
    }

    /// Fine and coarse values, then fine and coarse energies, each band after band.
    pub fn index(&self) -> (Vec<f32>, Vec<f32>, Vec<f64>, Vec<f64>) {
        let values = |bands: &Bands| bands.values.concat();
        let energy = |bands: &Bands| bands.energy.concat();
        let (fine, coarse) = (&self.0.fine, &self.0.coarse);
        (values(fine), values(coarse), energy(fine), energy(coarse))
    }

    pub fn search(&self, window: &Query, range: Option<(f64, f64)>) -> Vec<Candidate> {
        candidates(&self.0.match_query(&window.0, range))
    }
}

/// The Rust with its own functions: measured, not compared.
pub struct Own(own::matcher::SpectralMatcher);

impl Own {
    pub fn of(frames: &[FeatureFrame], hop: f64) -> Option<Self> {
        own::matcher::SpectralMatcher::new(frames, hop).map(Self)
    }

    /// How many candidates it finds.
    pub fn search(&self, window: &Query, range: Option<(f64, f64)>) -> usize {
        self.0.match_query(&window.0, range).candidates.len()
    }
}

/// A window as the Rust takes it.
pub struct Query(FeatureWindow);

impl Query {
    pub fn new(window: &Frames) -> Self {
        let first = window.times.first().copied().unwrap_or(0.0);
        let last = window.times.last().copied().unwrap_or(0.0);
        Self(FeatureWindow {
            frames: frames(window),
            start_recorded_time_ms: first,
            endpoint_recorded_time_ms: last,
        })
    }
}

pub fn frames(from: &Frames) -> Vec<FeatureFrame> {
    let frame = |i: usize| FeatureFrame {
        recorded_time_ms: from.times[i],
        energy_dbfs: -20.0,
        pcen_mel: from.values[i * from.bands..(i + 1) * from.bands].to_vec(),
    };
    (0..from.len()).map(frame).collect()
}

pub fn margin(found: &[Candidate]) -> f64 {
    let candidate = |numbers: &Candidate| sonalign::matcher::Candidate {
        offset_ms: numbers[0],
        score: numbers[1],
        first_half_score: numbers[2],
        second_half_score: numbers[3],
        recent_score: numbers[4],
    };
    let result = MatchResult {
        candidates: found.iter().map(candidate).collect(),
    };
    result.margin()
}

fn candidates(result: &MatchResult) -> Vec<Candidate> {
    let numbers = |c: &sonalign::matcher::Candidate| {
        [
            c.offset_ms,
            c.score,
            c.first_half_score,
            c.second_half_score,
            c.recent_score,
        ]
    };
    result.candidates.iter().map(numbers).collect()
}
