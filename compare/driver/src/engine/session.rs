//! A session as both sides are given it.

use crate::sessions::session::{Soundtrack, Window};
use sonalign::types::Configuration;

#[derive(Clone, Debug)]
pub struct Opening {
    pub configuration: Configuration,
    pub hop: f64,
    pub reference: Soundtrack,
    /// The index buffer that is lent one short of what the reference needs.
    pub short: Option<usize>,
}

/// What the port is lent with a window. The Rust has no use for it.
#[derive(Clone, Copy, Debug, PartialEq)]
pub enum Lent {
    Enough,
    /// One of the four buffers of the index is one short.
    ShortIndex(usize),
    /// One of the two working buffers is one short.
    ShortWork(usize),
    /// A state that holds no hop, for this one call.
    SpoiltState,
}

#[derive(Clone, Debug)]
pub struct Submission {
    /// What is heard, for a reader.
    pub shows: &'static str,
    pub window: Window,
    pub clock: f64,
    pub lent: Lent,
}

#[derive(Clone, Debug)]
pub struct Session {
    pub family: &'static str,
    pub opening: Opening,
    pub submissions: Vec<Submission>,
}

/// What opening fixes. Without index both counts and the start are 0.
#[derive(Clone, Copy, Debug, PartialEq)]
pub struct Settings {
    pub configuration: Configuration,
    pub hop: f64,
    pub frames: usize,
    pub bands: usize,
    pub start: f64,
}

impl Settings {
    pub fn of(opening: &Opening, indexed: bool) -> Self {
        let reference = &opening.reference;
        let (frames, bands, start) = match reference.times.first() {
            Some(&start) if indexed => (reference.times.len(), reference.bands, start),
            _ => (0, 0, 0.0),
        };
        Self {
            configuration: opening.configuration,
            hop: opening.hop,
            frames,
            bands,
            start,
        }
    }
}

/// How long document 01 asks the four index buffers to be.
pub fn index_lengths(frames: usize, bands: usize) -> [usize; 4] {
    let averaged = frames / 4;
    [
        bands * frames,
        bands * averaged,
        bands * (frames + 1),
        bands * (averaged + 1),
    ]
}

/// How long the index buffers are that opening is lent: longer by `tail`, or one short.
pub fn lent_index(opening: &Opening, tail: usize) -> [usize; 4] {
    let reference = &opening.reference;
    let needed = index_lengths(reference.times.len(), reference.bands);
    let mut lent = needed.map(|length| length + tail);
    if let Some(short) = opening.short {
        lent[short] = needed[short].saturating_sub(1);
    }
    lent
}

/// How long it asks the two working buffers to be, by the window and the state's frames.
pub fn work_lengths(bands: usize, frames: usize, reference_frames: usize) -> [usize; 2] {
    [
        2 * bands * frames,
        3 * bands * (frames + 1) + reference_frames,
    ]
}
