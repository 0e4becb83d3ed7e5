//! A session as the port is given it, and what the Rust answers.

use sonalign::engine::Hypothesis;
use sonalign::types::{Configuration, Snapshot};

/// The reference. Values lie band after band: `values[band * frames + frame]`.
#[derive(Clone, Debug)]
pub struct Soundtrack {
    pub bands: usize,
    pub times: Vec<f64>,
    pub values: Vec<f32>,
}

/// Values lie as those of a reference do.
#[derive(Clone, Debug)]
pub struct Window {
    pub bands: usize,
    pub times: Vec<f64>,
    pub energies: Vec<f64>,
    pub values: Vec<f32>,
}

/// Without its energies, what is heard may be a reference.
impl From<Window> for Soundtrack {
    fn from(window: Window) -> Self {
        Self {
            bands: window.bands,
            times: window.times,
            values: window.values,
        }
    }
}

impl Window {
    /// Refusal 11 of document 01 lets it pass.
    pub fn is_well_formed(&self) -> bool {
        let frames = self.times.len();
        let valid = |value: &f32| value.is_finite() && *value >= 0.0;
        self.bands > 0
            && self.energies.len() == frames
            && self.values.len() == self.bands * frames
            && self.values.iter().all(valid)
    }
}

/// What the port is lent with a window. The Rust has no use for it.
#[derive(Clone, Copy, Debug, PartialEq)]
pub enum Lent {
    Enough,
    /// Four empty buffers for an index.
    NoIndex,
    /// Two empty working buffers.
    NoWork,
}

#[derive(Clone, Debug)]
pub struct Submission {
    /// What it is in the list for.
    pub shows: &'static str,
    pub window: Window,
    pub clock: f64,
    pub lent: Lent,
}

#[derive(Clone, Debug)]
pub struct Session {
    pub name: &'static str,
    pub hop: f64,
    pub configuration: Configuration,
    pub reference: Soundtrack,
    pub submissions: Vec<Submission>,
}

/// What comes of a submission.
#[derive(Clone, Debug)]
pub enum Outcome {
    /// By its number in document 01.
    Refused(u8),
    Answered(Box<Answer>),
}

#[derive(Clone, Debug)]
pub struct Answer {
    pub reread: bool,
    pub jump: bool,
    pub snapshot: Snapshot,
    pub kept: Kept,
}

/// What the engine keeps for the next submission, beside the endpoint, the snapshot and its
/// milestones.
#[derive(Clone, Debug)]
pub struct Kept {
    pub pending: Option<Hypothesis>,
    pub accepted: Option<Hypothesis>,
    pub last_global_search_ms: f64,
}

/// A session with what comes of each submission.
pub struct Recorded {
    pub session: Session,
    /// Whether the reference was accepted.
    pub indexed: bool,
    pub outcomes: Vec<Outcome>,
}
