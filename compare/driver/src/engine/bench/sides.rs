//! The port and the two builds of the Rust at one size: states and windows for a submission of each
//! kind, and what is measured of it.

use super::super::ours::{self, Index, COMPUTED, REREAD};
use super::super::session::{index_lengths, work_lengths, Opening, Settings};
use super::super::words;
use crate::matcher::bench::clock::worked;
use crate::matcher::bench::sides::Side;
use crate::matcher::cases;
use crate::sessions::record::reference_frames;
use crate::sessions::session::{Soundtrack, Window};
use sonalign::engine::Engine;
use sonalign::running::{self, Kept, Open, Running};
use sonalign::types::{Configuration, FeatureFrame, FeatureWindow};
use std::hint::black_box;
use std::time::Duration;

pub const HOP: f64 = 20.0;

#[derive(Clone, Copy, PartialEq)]
pub enum Operation {
    Refused,
    Reread,
    Unready,
    Local,
    Whole,
    Both,
    Opening,
}

impl Operation {
    pub const ALL: [Operation; 7] = [
        Operation::Refused,
        Operation::Reread,
        Operation::Unready,
        Operation::Local,
        Operation::Whole,
        Operation::Both,
        Operation::Opening,
    ];

    pub fn name(self) -> &'static str {
        match self {
            Operation::Refused => "refused: the last value is below 0",
            Operation::Reread => "re-reading",
            Operation::Unready => "unready: silence",
            Operation::Local => "local search only",
            Operation::Whole => "whole search",
            Operation::Both => "local and whole search",
            Operation::Opening => "opening",
        }
    }

    /// Quick ones need more rounds for as steady a least.
    pub fn rounds(self) -> usize {
        match self {
            Operation::Refused | Operation::Reread | Operation::Unready => 1_001,
            Operation::Local => 101,
            Operation::Whole | Operation::Both | Operation::Opening => 15,
        }
    }
}

#[derive(Clone, Copy)]
pub struct Size {
    pub bands: usize,
    pub frames: usize,
    pub window: usize,
}

pub struct Sides {
    opening: Opening,
    frames: Vec<FeatureFrame>,
    window: Window,
    settings: Settings,
    index: Index,
    work32: Vec<f32>,
    work64: Vec<f64>,
    /// The engine after a whole search of the window.
    searched: Kept,
    replaced: Box<dyn Running>,
    own: Box<dyn Running>,
}

impl Sides {
    pub fn new(size: Size) -> Self {
        let case = cases::measured(HOP, size.bands, size.frames, size.window);
        let opening = Opening {
            configuration: Configuration::default(),
            hop: HOP,
            reference: Soundtrack {
                bands: size.bands,
                values: case.reference.by_band(),
                times: case.reference.times,
            },
            short: None,
        };
        let window = Window {
            bands: size.bands,
            values: case.window.by_band(),
            energies: vec![-20.0; size.window],
            times: case.window.times,
        };
        let frames = reference_frames(&opening.reference);
        let mut index = Index::new(index_lengths(size.frames, size.bands));
        let mut state = vec![0; words::STATE];
        assert_eq!(ours::open(&opening, &mut index, &mut state), 0, "opened");
        let [narrow, wide] = work_lengths(size.bands, size.window, size.frames);
        let mut replaced = running::open(&frames, HOP, opening.configuration);
        let heard = FeatureWindow::new(window_frames(&window)).expect("a sound window");
        replaced.process(&heard, 1.0);
        let searched = replaced.kept();
        assert!(searched.pending.is_some(), "the window passes");
        Self {
            settings: Settings::of(&opening, true),
            own: running::open_own(&frames, HOP, opening.configuration),
            replaced,
            searched,
            index,
            work32: vec![0.0; narrow],
            work64: vec![0.0; wide],
            window,
            frames,
            opening,
        }
    }

    /// How long the operation takes once; what it needs is made ready before.
    pub fn measure(&mut self, operation: Operation, side: Side) -> Duration {
        match (operation, side) {
            (Operation::Opening, Side::Ours) => self.opened_by_us(),
            (Operation::Opening, Side::Replaced) => self.opened_by(running::open),
            (Operation::Opening, Side::Own) => self.opened_by(running::open_own),
            (_, Side::Ours) => self.submitted_to_us(operation),
            (_, _) => self.submitted(operation, side),
        }
    }

    /// One state, after a whole search: of the port, and in two engines of the comparison build, of
    /// which the second has no index.
    pub fn marked(&self) -> (Vec<u64>, Engine, Engine) {
        let [with, without] = [&self.frames[..], &[]].map(|frames| {
            let mut engine = Engine::new(frames, HOP, self.opening.configuration);
            engine.keep(self.searched.clone());
            engine
        });
        let state = words::state(&self.settings, &self.searched);
        (state, with, without)
    }

    fn opened_by_us(&mut self) -> Duration {
        let mut state = vec![0; words::STATE];
        let begun = worked();
        let code = ours::open(&self.opening, &mut self.index, &mut state);
        let taken = worked() - begun;
        assert_eq!(code, 0, "opened");
        taken
    }

    fn opened_by(&self, open: Open) -> Duration {
        let begun = worked();
        let engine = open(black_box(&self.frames), HOP, self.opening.configuration);
        let taken = worked() - begun;
        assert!(engine.is_indexed(), "opened");
        taken
    }

    fn submitted_to_us(&mut self, operation: Operation) -> Duration {
        let mut state = words::state(&self.settings, &self.state(operation));
        let window = self.heard(operation);
        let mut snapshot = vec![0; words::SNAPSHOT];
        let lengths = self.index.lengths();
        let begun = worked();
        let code = ours::submit(
            &mut state,
            &self.index,
            lengths,
            &window,
            2.0,
            (&mut self.work32, &mut self.work64),
            &mut snapshot,
        );
        let taken = worked() - begun;
        let expected = match operation {
            Operation::Refused => 11,
            Operation::Reread => REREAD,
            _ => COMPUTED,
        };
        assert_eq!(code, expected, "{}", operation.name());
        taken
    }

    /// `FeatureWindow::new` of ready frames, then `process`.
    fn submitted(&mut self, operation: Operation, side: Side) -> Duration {
        let kept = self.state(operation);
        let frames = window_frames(&self.heard(operation));
        let engine = match side {
            Side::Own => &mut self.own,
            _ => &mut self.replaced,
        };
        engine.keep(kept);
        let begun = worked();
        // The window is dropped outside the measured time too.
        let window = FeatureWindow::new(frames);
        let answer = window.as_ref().map(|window| engine.process(window, 2.0));
        let taken = worked() - begun;
        assert_eq!(answer.is_ok(), operation != Operation::Refused);
        let whole = answer.is_ok_and(|snapshot| snapshot.diagnostics.spectral.global_search);
        let expected = matches!(operation, Operation::Whole | Operation::Both);
        assert_eq!(whole, expected || operation == Operation::Reread);
        taken
    }

    /// The state that the operation starts from.
    fn state(&self, operation: Operation) -> Kept {
        let end = self.window.times[self.window.times.len() - 1];
        let mut kept = self.searched.clone();
        match operation {
            Operation::Refused | Operation::Reread => return kept,
            Operation::Whole | Operation::Unready | Operation::Opening => return Kept::FRESH,
            Operation::Local => kept.last_global_search_ms = end - 400.0,
            Operation::Both => kept.last_global_search_ms = end - 2_000.0,
        }
        // A track that was supported 400 ms before.
        kept.last_endpoint_ms = Some(end - 400.0);
        kept.accepted = kept
            .pending
            .map(|[place, _, evidence, score]| [place, evidence - 400.0, evidence - 400.0, score]);
        kept
    }

    fn heard(&self, operation: Operation) -> Window {
        let mut window = self.window.clone();
        match operation {
            Operation::Refused => {
                if let Some(last) = window.values.last_mut() {
                    *last = -1.0;
                }
            }
            Operation::Unready => window.energies.fill(-120.0),
            _ => {}
        }
        window
    }
}

fn window_frames(window: &Window) -> Vec<FeatureFrame> {
    let frames = window.times.len();
    let value = |band: usize, frame: usize| window.values[band * frames + frame];
    (0..frames)
        .map(|i| FeatureFrame {
            recorded_time_ms: window.times[i],
            energy_dbfs: window.energies[i],
            pcen_mel: (0..window.bands).map(|band| value(band, i)).collect(),
        })
        .collect()
}
