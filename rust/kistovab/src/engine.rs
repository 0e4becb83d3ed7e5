//! The engine.

use crate::buffers::{common_bands, Flat, Index, Work};
use crate::refusal::{mismatched, Refusal};
use crate::types::{Configuration, FeatureFrame, FeatureWindow, Snapshot};
use crate::{ffi, words};
use std::fmt;
use std::mem;
use std::sync::Arc;

/// How many states a store keeps, under the names from 1 on.
pub const PLACES: usize = 8;
/// The words of a store: see [`Engine::keep`].
pub const STORE_WORDS: usize = 848;

/// Finds the place of windows, one after the other, in one reference.
///
/// What is decided rests on recorded time alone: a window that is handed in again brings no new
/// evidence, and the clock's reading only marks when something was first reached.
///
/// It owns all memory that the library works with. The index, which is most of it, is not written
/// after opening, and clones share it.
#[derive(Clone)]
pub struct Engine {
    index: Arc<Index>,
    state: [u64; words::STATE],
    // Filled anew by each submission.
    window: Flat,
    work: Work,
    shown: [u64; words::SNAPSHOT],
}

/// What comes of a window that is not refused.
#[derive(Debug, Clone, PartialEq)]
pub struct Answer {
    /// Whether it was computed.
    pub kind: AnswerKind,
    /// What it shows.
    pub snapshot: Snapshot,
}

/// How an answer came about.
#[derive(Debug, Clone, Copy, PartialEq, Eq, Hash)]
pub enum AnswerKind {
    /// The window was judged, and the engine has moved on.
    Computed,
    /// The window ends where the last computed one does or less than 90 ms later: the answer is the
    /// last one with its estimate moved to this window's endpoint, and the engine is as it was.
    Reread,
}

impl Engine {
    /// Opens a reference: makes its index, and an engine that has heard nothing.
    ///
    /// A reference that cannot be searched is opened without index: fewer than two frames, times
    /// that do not follow the hop or are not finite, no bands, frames whose bands differ in number,
    /// a value that is negative or not finite. Every window is then answered with
    /// [`IndexUnavailable`](crate::WithholdReason::IndexUnavailable).
    ///
    /// # Panics
    /// Where [`try_new`](Self::try_new) refuses, with the refusal's text. sonalign's panics at an
    /// invalid configuration only.
    #[track_caller]
    pub fn new(
        reference_frames: &[FeatureFrame],
        hop_ms: f64,
        configuration: Configuration,
    ) -> Self {
        match Self::try_new(reference_frames, hop_ms, configuration) {
            Ok(engine) => engine,
            Err(refusal) => panic!("{refusal}"),
        }
    }

    /// Opens a reference as [`new`](Self::new) does.
    ///
    /// # Errors
    /// [`InvalidConfiguration`](Refusal::InvalidConfiguration),
    /// [`HopOutOfRange`](Refusal::HopOutOfRange),
    /// [`ReferenceTooLarge`](Refusal::ReferenceTooLarge) and
    /// [`ReferenceTimeTooFar`](Refusal::ReferenceTimeTooFar); the first of them that applies.
    pub fn try_new(
        reference_frames: &[FeatureFrame],
        hop_ms: f64,
        configuration: Configuration,
    ) -> Result<Self, Refusal> {
        let mut reference = Flat::default();
        reference.fill(reference_frames, common_bands(reference_frames));
        let mut index = Index::for_reference(reference_frames.len(), reference.bands);
        let mut state = [0; words::STATE];
        let code = ffi::open(&configuration, hop_ms, &reference, &mut index, &mut state);
        answered(code)?;
        if state[0] != words::LAYOUT {
            mismatched();
        }
        if words::reference_frames(&state) == 0 {
            index = Index::default();
        }
        Ok(Self {
            index: Arc::new(index),
            state,
            window: Flat::default(),
            work: Work::default(),
            shown: [0; words::SNAPSHOT],
        })
    }

    /// Answers a window. `elapsed_ms` is the clock's reading, which milestones carry.
    ///
    /// # Panics
    /// Where [`try_process`](Self::try_process) refuses, with the refusal's text; the engine is then
    /// as it was. sonalign's panics at a clock reading that is not finite only.
    #[track_caller]
    pub fn process(&mut self, query: &FeatureWindow, elapsed_ms: f64) -> Snapshot {
        match self.try_process(query, elapsed_ms) {
            Ok(answer) => answer.snapshot,
            Err(refusal) => panic!("{refusal}"),
        }
    }

    /// Answers a window as [`process`](Self::process) does, and says how.
    ///
    /// # Errors
    /// [`ClockNotFinite`](Refusal::ClockNotFinite), [`WindowTooLarge`](Refusal::WindowTooLarge) and
    /// [`WindowTimeOutOfRange`](Refusal::WindowTimeOutOfRange); the first of them that applies. Before
    /// them [`StateOutOfRange`](Refusal::StateOutOfRange) and
    /// [`IndexTooShort`](Refusal::IndexTooShort), where [`restore`](Self::restore) gave a state that
    /// is none of this reference's.
    pub fn try_process(
        &mut self,
        query: &FeatureWindow,
        elapsed_ms: f64,
    ) -> Result<Answer, Refusal> {
        let kind = self.submit(query, elapsed_ms)?;
        let snapshot = self.shown(Vec::new());
        Ok(Answer { kind, snapshot })
    }

    /// Answers a window as [`try_process`](Self::try_process) does, into a snapshot that is there
    /// already: the last one, or [`Snapshot::blank`] at first. A refused call leaves it as it was.
    ///
    /// Nothing is allocated once a snapshot was filled and a window as large was answered.
    ///
    /// # Errors
    /// As [`try_process`](Self::try_process).
    pub fn try_process_into(
        &mut self,
        query: &FeatureWindow,
        elapsed_ms: f64,
        snapshot: &mut Snapshot,
    ) -> Result<AnswerKind, Refusal> {
        let kind = self.submit(query, elapsed_ms)?;
        let mut candidates = mem::take(&mut snapshot.diagnostics.candidates);
        candidates.clear();
        candidates.reserve(words::MOST_CANDIDATES);
        *snapshot = self.shown(candidates);
        Ok(kind)
    }

    /// For how long the lock that was last computed has been without support, from 0 to 1,500 ms of
    /// recorded time; nothing where the last computed answer was not
    /// [`Locked`](crate::State::Locked), or none was computed yet. Nothing also of a restored state
    /// that windows are refused for, with [`StateOutOfRange`](Refusal::StateOutOfRange).
    pub fn support_age(&self) -> Option<f64> {
        let mut age = 0.0;
        match ffi::support_age(&self.state, &mut age) {
            ffi::DONE => Some(age),
            ffi::NO_AGE => None,
            // The next window is refused with it too, and says so.
            code if code == Refusal::StateOutOfRange.number() => None,
            code => panic!("support age was answered with {code}"),
        }
    }

    /// Keeps the engine's state in a store, under a name from 1 to [`PLACES`]: the mark of a rerun.
    /// What was kept under that name is replaced; the store's other words stay.
    ///
    /// The whole state is kept: configuration, chain, lock, milestones and the last snapshot. The
    /// index is not: a kept state belongs to engines over the same reference.
    ///
    /// A store is at least [`STORE_WORDS`] words. Of zeros it keeps nothing. Its words are the
    /// library's: they may be saved and lent again as a whole.
    ///
    /// ```
    /// use kistovab::{workload, Configuration, Engine, FeatureWindow, State, STORE_WORDS};
    ///
    /// const HOP_MS: f64 = 20.0;
    ///
    /// let reel = workload::frames(0x9E37_79B9_7F4A_7C15, HOP_MS, 1_000, 8)?;
    /// let mut engine = Engine::new(&reel, HOP_MS, Configuration::default());
    /// // Three seconds, each window half a second later.
    /// let play = |engine: &mut Engine, halves: [usize; 3]| {
    ///     halves.map(|half| {
    ///         let heard = reel[25 * half..25 * half + 150].to_vec();
    ///         let window = FeatureWindow::new(heard).expect("frames without fault");
    ///         engine.process(&window, 500.0 * half as f64)
    ///     })
    /// };
    ///
    /// let mut store = [0; STORE_WORDS];
    /// engine.keep(1, &mut store)?;
    /// let first = play(&mut engine, [0, 1, 2]);
    /// assert_eq!(first[2].state, State::Locked);
    ///
    /// // The reel is set back to the mark, and with it the recorder.
    /// engine.restore(1, &store)?;
    /// assert_eq!(play(&mut engine, [0, 1, 2]), first);
    /// # Ok::<(), kistovab::Refusal>(())
    /// ```
    ///
    /// # Errors
    /// [`NameOutOfRange`](Refusal::NameOutOfRange) and [`StoreTooShort`](Refusal::StoreTooShort); the
    /// first of them that applies. Then nothing is written.
    pub fn keep(&self, name: usize, store: &mut [u64]) -> Result<(), Refusal> {
        answered_of_store(ffi::keep(&self.state, name, store))
    }

    /// Puts the engine back into the state that was [kept](Self::keep) under a name, by this engine or
    /// another one over the same reference. Windows are then answered as they were after the mark:
    /// what was reached since, a lock too, is not there.
    ///
    /// Recorded times go on from the mark too. A window that ends before the mark's last one, or
    /// begins more than two hops after its end, is a jump, as ever.
    ///
    /// The state is not judged here. One that was kept over another reference is answered, or refused
    /// with [`IndexTooShort`](Refusal::IndexTooShort) at the next window, and nothing is promised of
    /// it. Words that no engine kept give some state or [`NothingKept`](Refusal::NothingKept); an
    /// invalid state is refused with [`StateOutOfRange`](Refusal::StateOutOfRange) at the next window,
    /// until a valid one is restored.
    ///
    /// # Errors
    /// [`NameOutOfRange`](Refusal::NameOutOfRange), [`StoreTooShort`](Refusal::StoreTooShort) and
    /// [`NothingKept`](Refusal::NothingKept); the first of them that applies. Then the engine is as
    /// it was.
    pub fn restore(&mut self, name: usize, store: &[u64]) -> Result<(), Refusal> {
        answered_of_store(ffi::restore(&mut self.state, name, store))
    }

    fn submit(&mut self, query: &FeatureWindow, elapsed_ms: f64) -> Result<AnswerKind, Refusal> {
        let (frames, bands) = (query.frames(), query.bands());
        let reference_frames = words::reference_frames(&self.state);
        self.window.fill(frames, bands);
        self.work.fit(frames.len(), bands, reference_frames);
        answered(ffi::submit(
            &mut self.state,
            &self.index,
            &self.window,
            elapsed_ms,
            &mut self.work,
            &mut self.shown,
        ))
    }

    /// What the last submission showed.
    fn shown(&self, candidates: Vec<crate::CandidateDiagnostics>) -> Snapshot {
        let [_layout, shown @ ..] = &self.shown;
        words::snapshot(shown, candidates)
    }
}

fn answered(code: u32) -> Result<AnswerKind, Refusal> {
    match code {
        ffi::DONE => Ok(AnswerKind::Computed),
        ffi::REREAD => Ok(AnswerKind::Reread),
        code => Err(Refusal::answered(code)),
    }
}

fn answered_of_store(code: u32) -> Result<(), Refusal> {
    match code {
        ffi::DONE => Ok(()),
        code => Err(Refusal::answered_of_store(code)),
    }
}

/// What it was opened with, and the last computed snapshot.
impl fmt::Debug for Engine {
    fn fmt(&self, f: &mut fmt::Formatter<'_>) -> fmt::Result {
        f.debug_struct("Engine")
            .field("configuration", &words::configuration(&self.state))
            .field("hop_ms", &words::hop_ms(&self.state))
            .field("reference_frames", &words::reference_frames(&self.state))
            .field("reference_bands", &words::reference_bands(&self.state))
            .field("last_snapshot", &words::last_snapshot(&self.state))
            .finish_non_exhaustive()
    }
}

#[cfg(test)]
mod tests {
    use super::*;

    const HOP_MS: f64 = 250.0;

    fn frames(count: usize) -> Vec<FeatureFrame> {
        let frame = |n: usize| FeatureFrame {
            recorded_time_ms: n as f64 * HOP_MS,
            energy_dbfs: -20.0,
            pcen_mel: vec![(n * n % 17) as f32, (n * n % 23) as f32],
        };
        (0..count).map(frame).collect()
    }

    fn opened(reference: &[FeatureFrame]) -> Engine {
        Engine::new(reference, HOP_MS, Configuration::default())
    }

    fn window(frames: Vec<FeatureFrame>) -> FeatureWindow {
        FeatureWindow::new(frames).expect("frames in range")
    }

    #[test]
    fn a_refusal_changes_no_word() {
        let mut engine = opened(&frames(80));
        engine.process(&window(frames(24)), 1.0);
        let (state, shown) = (engine.state, engine.shown);
        let mut far = frames(24);
        far[3].recorded_time_ms = 2e12;
        for (query, clock) in [(frames(24), f64::NAN), (frames(1_025), 2.0), (far, 2.0)] {
            assert!(engine.try_process(&window(query), clock).is_err());
            assert_eq!((engine.state, engine.shown), (state, shown));
        }
    }

    #[test]
    fn a_rereading_changes_no_word_of_the_state() {
        let mut engine = opened(&frames(80));
        engine.process(&window(frames(24)), 1.0);
        let state = engine.state;
        let again = engine.try_process(&window(frames(24)), 2.0);
        assert_eq!(again.map(|answer| answer.kind), Ok(AnswerKind::Reread));
        assert_eq!(engine.state, state);
    }

    #[test]
    fn clones_share_the_index() {
        let engine = opened(&frames(80));
        assert_eq!(engine.index.fine.len(), 160);
        assert!(Arc::ptr_eq(&engine.index, &engine.clone().index));
    }

    #[test]
    fn a_reference_that_cannot_be_searched_keeps_no_index() {
        let mut reference = frames(80);
        reference[7].pcen_mel[1] = f32::NAN;
        let mut engine = opened(&reference);
        assert_eq!(engine.index.fine.len() + engine.index.fine_energy.len(), 0);
        let shown = engine.process(&window(frames(24)), 1.0);
        assert_eq!(shown.state, crate::State::Failed);
    }

    #[test]
    fn answers_are_told_by_their_code() {
        assert_eq!(answered(0), Ok(AnswerKind::Computed));
        assert_eq!(answered(100), Ok(AnswerKind::Reread));
        for refusal in Refusal::ALL {
            assert_eq!(answered(refusal.number()), Err(refusal));
        }
    }

    #[test]
    fn answers_of_places_are_told_by_their_code() {
        assert_eq!(answered_of_store(0), Ok(()));
        for refusal in Refusal::OF_PLACES {
            assert_eq!(answered_of_store(refusal.number()), Err(refusal));
        }
    }

    #[test]
    #[should_panic(expected = "another version")]
    fn an_unknown_code_is_no_answer() {
        let _ = answered(255);
    }
}
