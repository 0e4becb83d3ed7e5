//! A build of the Rust as a side of a session. It refuses what document 01 refuses, in the driver's
//! reading.

use super::ours::{COMPUTED, REREAD};
use super::reading::{self, Handed, Jump};
use super::session::{
    index_lengths, lent_index, work_lengths, Lent, Opening, Settings, Submission,
};
use super::words;
use crate::sessions::record::{feature_window, reference_frames};
use crate::sessions::session::Window;
use sonalign::running::{Kept, Rows, Running};
use sonalign::types::{Configuration, FeatureFrame, Snapshot};

/// `Engine::new` of a build.
pub type OpenAs<E> = fn(&[FeatureFrame], f64, Configuration) -> Box<E>;

/// Where the build is known, its engine can be cloned, and the side with it.
#[derive(Clone)]
pub struct Theirs<E: ?Sized = dyn Running> {
    pub settings: Settings,
    engine: Box<E>,
    /// The lengths of the index buffers, which are the port's.
    index: [usize; 4],
    tail: usize,
}

/// A submission and what came of it.
pub struct Seen<'a> {
    pub settings: Settings,
    pub window: &'a Window,
    /// The answer's number.
    pub code: u32,
    pub jump: Option<Jump>,
    pub before: Kept,
    pub after: Kept,
    /// Where it is answered.
    pub snapshot: Option<Snapshot>,
}

impl<E: Running + ?Sized> Theirs<E> {
    /// Of an opening that is not refused. Buffers are longer by `tail` than they need be.
    pub fn open(open: OpenAs<E>, opening: &Opening, tail: usize) -> Self {
        let reference = reference_frames(&opening.reference);
        let engine = open(&reference, opening.hop, opening.configuration);
        Self {
            settings: Settings::of(opening, engine.is_indexed()),
            engine,
            index: lent_index(opening, tail),
            tail,
        }
    }

    pub fn is_indexed(&self) -> bool {
        self.engine.is_indexed()
    }

    pub fn index(&self) -> Option<Rows> {
        self.engine.index()
    }

    pub fn alter(&mut self, rows: &Rows) {
        self.engine.alter(rows);
    }

    pub fn kept(&self) -> Kept {
        self.engine.kept()
    }

    pub fn keep(&mut self, kept: Kept) {
        self.engine.keep(kept);
    }

    pub fn state(&self) -> Vec<u64> {
        words::state(&self.settings, &self.engine.kept())
    }

    /// What is handed in with a submission.
    pub fn handed<'a>(&self, submission: &'a Submission) -> Handed<'a> {
        let (settings, window) = (&self.settings, &submission.window);
        let mut index = self.index;
        let needed = work_lengths(window.bands, window.times.len(), settings.frames);
        let mut work = needed.map(|length| length + self.tail);
        match submission.lent {
            Lent::ShortIndex(part) => {
                let needed = index_lengths(settings.frames, settings.bands)[part];
                index[part] = needed.checked_sub(1).unwrap_or(index[part]);
            }
            Lent::ShortWork(part) => work[part] = needed[part].saturating_sub(1),
            Lent::Enough | Lent::SpoiltState => {}
        }
        Handed {
            window,
            clock: submission.clock,
            index,
            work,
        }
    }

    pub fn submit<'a>(&mut self, handed: &Handed<'a>) -> Seen<'a> {
        let (settings, before) = (self.settings, self.engine.kept());
        let window = handed.window;
        if let Some(code) = reading::submission_refusal(&settings, &before, handed) {
            return Seen {
                settings,
                window,
                code,
                jump: None,
                after: before.clone(),
                before,
                snapshot: None,
            };
        }
        let (code, snapshot) = self.process(window, handed.clock);
        Seen {
            settings,
            window,
            code,
            jump: reading::jump(&settings, &before, window),
            before,
            after: self.engine.kept(),
            snapshot: Some(snapshot),
        }
    }

    /// Whether the Rust answers with its last snapshot is told by a mark that no computed answer
    /// carries: it is written into that snapshot, and looked for in the answer.
    fn process(&mut self, window: &Window, clock: f64) -> (u32, Snapshot) {
        const MARK: usize = usize::MAX;
        let old = self.engine.last_snapshot().map(|snapshot| {
            let count = &mut snapshot.diagnostics.track_count;
            std::mem::replace(count, MARK)
        });
        let mut snapshot = self.engine.process(&feature_window(window), clock);
        let reread = snapshot.diagnostics.track_count == MARK;
        if let Some(old) = old {
            let unmark = |snapshot: &mut Snapshot| {
                if snapshot.diagnostics.track_count == MARK {
                    snapshot.diagnostics.track_count = old;
                }
            };
            unmark(&mut snapshot);
            self.engine.last_snapshot().map(unmark);
        }
        (if reread { REREAD } else { COMPUTED }, snapshot)
    }
}
