//! Loads for test benches: made-up references and windows, from a seed.
//!
//! The library fills them, and is proved to fill them as said here, so that two benches in any
//! languages hold the same numbers, bit for bit: name seed, hop, frames and bands, and nothing need
//! be handed over.
//!
//! From the seed on, each step of Marsaglia's 64-bit xorshift (`x ^= x << 13; x ^= x >> 7;
//! x ^= x << 17`) draws a number n, and that gives the value (n mod 4096) / 256: from 0 to
//! 15.99609375, and exact. Values go band after band, and in each band frame after frame. The time of
//! frame i is i × hop, rounded once; every energy is -20 dBFS. Small seeds may draw much
//! alike at first: take seeds that are far apart.
//!
//! Proved of a load: with two frames or more and a band or more, it is a reference that opens with
//! an index; with 1 to 1,024 frames and 1 to 64 bands, it is a window that no submission refuses for
//! what it holds.
//!
//! ```
//! use kistovab::{workload, Configuration, Engine, FeatureWindow};
//!
//! const HOP_MS: f64 = 20.0;
//!
//! let reference = workload::frames(0x9E37_79B9_7F4A_7C15, HOP_MS, 1_000, 8)?;
//! let mut engine = Engine::new(&reference, HOP_MS, Configuration::default());
//!
//! // Three seconds of it, from frame 400 on, as if a recording had just begun.
//! let mut heard = reference[400..550].to_vec();
//! for (frame, first) in heard.iter_mut().zip(&reference) {
//!     frame.recorded_time_ms = first.recorded_time_ms;
//! }
//! let snapshot = engine.process(&FeatureWindow::new(heard)?, 0.0);
//! let place = snapshot.estimate.expect("the place was found");
//! assert!((place.offset_ms - 400.0 * HOP_MS).abs() < 1.0);
//! # Ok::<(), Box<dyn std::error::Error>>(())
//! ```

use crate::buffers::Flat;
use crate::ffi;
use crate::refusal::Refusal;
use crate::types::FeatureFrame;

/// Fills slices with a load: a time and an energy for each frame, and a value for each band and
/// frame, `values[band * times.len() + frame]`. There may be no frames, and no bands.
///
/// ```
/// use kistovab::{workload, Refusal};
///
/// let (mut times, mut energies, mut values) = ([0.0; 2], [0.0; 2], [0.0; 4]);
/// workload::fill(1, 20.0, 2, &mut times, &mut energies, &mut values)?;
/// assert_eq!(times, [0.0, 20.0]);
/// assert_eq!(energies, [-20.0, -20.0]);
/// assert_eq!(values, [0.25390625, 4.25390625, 6.16015625, 0.14453125]);
/// # Ok::<(), Refusal>(())
/// ```
///
/// # Errors
/// [`SeedZero`](Refusal::SeedZero), [`HopOutOfRange`](Refusal::HopOutOfRange),
/// [`ReferenceTooLarge`](Refusal::ReferenceTooLarge) and
/// [`ReferenceMiscounted`](Refusal::ReferenceMiscounted), which is where there are not exactly as
/// many energies as times, or not bands × times values; the first of them that applies. Then nothing
/// is written.
pub fn fill(
    seed: u64,
    hop_ms: f64,
    bands: usize,
    times: &mut [f64],
    energies: &mut [f64],
    values: &mut [f32],
) -> Result<(), Refusal> {
    match ffi::fill_load(seed, hop_ms, bands, times, energies, values) {
        ffi::DONE => Ok(()),
        code => Err(Refusal::answered(code)),
    }
}

/// The same load as frames, for [`Engine::new`](crate::Engine::new) or
/// [`FeatureWindow::new`](crate::FeatureWindow::new).
///
/// # Errors
/// [`SeedZero`](Refusal::SeedZero), [`HopOutOfRange`](Refusal::HopOutOfRange) and
/// [`ReferenceTooLarge`](Refusal::ReferenceTooLarge); the first of them that applies. Then nothing
/// is allocated.
pub fn frames(
    seed: u64,
    hop_ms: f64,
    frames: usize,
    bands: usize,
) -> Result<Vec<FeatureFrame>, Refusal> {
    // Tells all but the number of frames, and takes no memory.
    fill(seed, hop_ms, bands, &mut [], &mut [], &mut [])?;
    // 0 where there are more than the library takes.
    if ffi::fine_length(frames, 1) < frames {
        return Err(Refusal::ReferenceTooLarge);
    }
    let mut flat = Flat::for_frames(frames, bands);
    let Flat {
        times,
        energies,
        values,
        ..
    } = &mut flat;
    fill(seed, hop_ms, bands, times, energies, values)?;
    Ok(flat.frames())
}
