//! An engine of any build of the Rust, by what it keeps from one submission to the next, so that
//! builds can be run side by side and set to the same state.

use crate::types::{Configuration, FeatureFrame, FeatureWindow, Snapshot};

/// Offset, first and last evidence, correlation.
pub type Track = [f64; 4];

/// All that a submission changes.
#[derive(Clone, Debug, PartialEq)]
pub struct Kept {
    pub pending: Option<Track>,
    pub accepted: Option<Track>,
    pub last_global_search_ms: f64,
    /// First provisional, confirmed, final.
    pub milestones: [Option<f64>; 3],
    pub last_endpoint_ms: Option<f64>,
    pub last_snapshot: Option<Snapshot>,
}

impl Kept {
    /// What a fresh engine keeps.
    pub const FRESH: Self = Self {
        pending: None,
        accepted: None,
        last_global_search_ms: f64::NEG_INFINITY,
        milestones: [None; 3],
        last_endpoint_ms: None,
        last_snapshot: None,
    };
}

/// The four parts of an index, each band after band: values, averages, and the energies of both.
#[derive(Clone, Debug, Default)]
pub struct Rows {
    pub fine: Vec<f32>,
    pub coarse: Vec<f32>,
    pub fine_energy: Vec<f64>,
    pub coarse_energy: Vec<f64>,
}

pub trait Running {
    fn is_indexed(&self) -> bool;
    fn index(&self) -> Option<Rows>;
    /// Puts other numbers in the place of the index's. They must be as many.
    fn alter(&mut self, rows: &Rows);
    fn process(&mut self, query: &FeatureWindow, elapsed_ms: f64) -> Snapshot;
    fn kept(&self) -> Kept;
    fn keep(&mut self, kept: Kept);
    fn last_snapshot(&mut self) -> Option<&mut Snapshot>;
}

/// Copies numbers into bands, one after the other.
pub fn refill<T: Copy>(bands: &mut [Vec<T>], mut from: &[T]) {
    for band in bands {
        let (row, rest) = from.split_at(band.len());
        band.copy_from_slice(row);
        from = rest;
    }
}

/// `Engine::new` of some build.
pub type Open = fn(&[FeatureFrame], f64, Configuration) -> Box<dyn Running>;

/// Implements [`Running`] for the engine of a module, whose fields are public.
#[macro_export]
macro_rules! running {
    ($($module:tt)+) => {
        impl $crate::running::Running for $($module)+::Engine {
            fn is_indexed(&self) -> bool {
                self.matcher.is_some()
            }

            fn index(&self) -> Option<$crate::running::Rows> {
                self.matcher.as_ref().map(|matcher| $crate::running::Rows {
                    fine: matcher.fine.values.concat(),
                    coarse: matcher.coarse.values.concat(),
                    fine_energy: matcher.fine.energy.concat(),
                    coarse_energy: matcher.coarse.energy.concat(),
                })
            }

            fn alter(&mut self, rows: &$crate::running::Rows) {
                use $crate::running::refill;
                if let Some(matcher) = &mut self.matcher {
                    refill(&mut matcher.fine.values, &rows.fine);
                    refill(&mut matcher.coarse.values, &rows.coarse);
                    refill(&mut matcher.fine.energy, &rows.fine_energy);
                    refill(&mut matcher.coarse.energy, &rows.coarse_energy);
                }
            }

            fn process(
                &mut self,
                query: &$crate::types::FeatureWindow,
                elapsed_ms: f64,
            ) -> $crate::types::Snapshot {
                $($module)+::Engine::process(self, query, elapsed_ms)
            }

            fn kept(&self) -> $crate::running::Kept {
                let track = |held: &$($module)+::Hypothesis| {
                    [
                        held.offset_ms,
                        held.first_evidence_ms,
                        held.last_evidence_ms,
                        held.correlation,
                    ]
                };
                $crate::running::Kept {
                    pending: self.pending.as_ref().map(track),
                    accepted: self.accepted.as_ref().map(track),
                    last_global_search_ms: self.last_global_search_ms,
                    milestones: [self.first_provisional_ms, self.confirmed_ms, self.final_ms],
                    last_endpoint_ms: self.last_endpoint_ms,
                    last_snapshot: self.last_snapshot.clone(),
                }
            }

            fn keep(&mut self, kept: $crate::running::Kept) {
                let held = |track: $crate::running::Track| $($module)+::Hypothesis {
                    offset_ms: track[0],
                    first_evidence_ms: track[1],
                    last_evidence_ms: track[2],
                    correlation: track[3],
                };
                self.pending = kept.pending.map(held);
                self.accepted = kept.accepted.map(held);
                self.last_global_search_ms = kept.last_global_search_ms;
                [self.first_provisional_ms, self.confirmed_ms, self.final_ms] = kept.milestones;
                self.last_endpoint_ms = kept.last_endpoint_ms;
                self.last_snapshot = kept.last_snapshot;
            }

            fn last_snapshot(&mut self) -> Option<&mut $crate::types::Snapshot> {
                self.last_snapshot.as_mut()
            }
        }
    };
}

running!(crate::engine);
running!(crate::own::engine);

pub fn open(frames: &[FeatureFrame], hop: f64, configuration: Configuration) -> Box<dyn Running> {
    Box::new(crate::engine::Engine::new(frames, hop, configuration))
}

/// With its own functions, for measuring only.
pub fn open_own(
    frames: &[FeatureFrame],
    hop: f64,
    configuration: Configuration,
) -> Box<dyn Running> {
    Box::new(crate::own::engine::Engine::new(frames, hop, configuration))
}
