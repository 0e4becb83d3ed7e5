//! The caption lock: hears windows of sound features one after the other and says where in a known
//! reference they were recorded, once there is evidence enough.
//!
//! The work is done by libkistovab.a, whose calls are proved to equal their definitions, with the
//! lock guarantee on top (docs/GUARANTEE.md of the repository). This crate, which is tested and not
//! proved, puts sonalign's names around it: types, fields and signatures are sonalign's, so that a
//! program written for sonalign is moved over by changing its `use`.
//!
//! ```
//! use kistovab::{Configuration, Engine, FeatureFrame, FeatureWindow, State};
//!
//! const HOP_MS: f64 = 20.0;
//!
//! // Frames of a soundtrack in two bands: tones that rise, so that no two places sound alike.
//! fn frame(number: usize, recorded_time_ms: f64) -> FeatureFrame {
//!     let t = number as f32;
//!     FeatureFrame {
//!         recorded_time_ms,
//!         energy_dbfs: -20.0,
//!         pcen_mel: vec![1.0 + (t * t * 2e-4).sin(), 1.0 + (t * t * 3e-4).cos()],
//!     }
//! }
//!
//! let reference: Vec<_> = (0..700).map(|i| frame(i, i as f64 * HOP_MS)).collect();
//! let mut engine = Engine::new(&reference, HOP_MS, Configuration::default());
//!
//! // The hall is heard from frame 200 on: three seconds at a time, each window half a second later.
//! let states = [0, 25, 50].map(|first| {
//!     let heard = (first..first + 150).map(|i| frame(200 + i, i as f64 * HOP_MS));
//!     let window = FeatureWindow::new(heard.collect()).expect("frames without fault");
//!     let snapshot = engine.process(&window, first as f64 * HOP_MS);
//!     let place = snapshot.estimate.expect("the place was found");
//!     assert!((place.offset_ms - 200.0 * HOP_MS).abs() < 1.0);
//!     snapshot.state
//! });
//! assert_eq!(states, [State::Locking, State::Locking, State::Locked]);
//! ```
//!
//! # Beside sonalign's
//!
//! - [`Engine::try_new`] and [`Engine::try_process`] give a [`Refusal`] where [`Engine::new`] and
//!   [`Engine::process`] panic, and tell whether an answer was computed or is a re-reading.
//! - [`Engine::try_process_into`] fills a snapshot that is there already: nothing is allocated.
//! - [`Engine::support_age`] says for how long a lock has been without support.
//! - [`Engine::keep`] keeps the state under one of eight names, in words that are lent, and
//!   [`Engine::restore`] puts the engine back to it: to rerun a reel from a mark.
//! - [`workload`] fills made-up references and windows from a seed, for test benches: the same
//!   numbers in every language.
//!
//! # What differs
//!
//! - Limits: hops from 1 to 1,000 ms, references of at most 65,535 frames, windows of at most 1,024,
//!   both of at most 64 bands, times within ±10^12 ms. Beyond them [`Engine::new`] and
//!   [`Engine::process`] panic, where sonalign goes on.
//! - `exp`, `ln_1p`, `powf` and `log10` are replaced by functions that give the same bits on every
//!   machine, so that numbers may differ from sonalign's in their last places (docs/DIFFERENCES.md).
//! - The types have no serde forms.
//! - `{:?}` of an engine is a summary; clones of an engine share its index.

#![deny(missing_docs, unsafe_code)]
#![warn(clippy::all)]

mod buffers;
pub mod engine;
mod ffi;
pub mod refusal;
pub mod types;
mod words;
pub mod workload;

pub use engine::{Answer, AnswerKind, Engine, PLACES, STORE_WORDS};
pub use refusal::Refusal;
pub use types::{
    CandidateDiagnostics, Configuration, Diagnostics, Estimate, FeatureFrame, FeatureWindow,
    InputError, LockPhase, Snapshot, SpectralDiagnostics, Stage, State, WithholdReason,
};
