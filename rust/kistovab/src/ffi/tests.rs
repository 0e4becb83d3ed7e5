//! Every refusal that the library knows, by its number, and that a refused call writes nothing. Most
//! cannot be brought about through the crate's own types.

use super::*;
use crate::types::FeatureFrame;
use crate::words;
use crate::{PLACES, STORE_WORDS};

const HOP_MS: f64 = 250.0;
const REFERENCE: usize = 60;
const WINDOW: usize = 24;

fn sound(frames: usize) -> Flat {
    let frame = |n: usize| FeatureFrame {
        recorded_time_ms: n as f64 * HOP_MS,
        energy_dbfs: -20.0,
        pcen_mel: vec![(n * n % 17) as f32, (n * n % 23) as f32],
    };
    let mut flat = Flat::default();
    flat.fill(&(0..frames).map(frame).collect::<Vec<_>>(), 2);
    flat
}

// ---- opening

/// All that opening is handed.
#[derive(Clone)]
struct Opening {
    configuration: Configuration,
    hop_ms: f64,
    reference: Flat,
    index: Index,
    state: Vec<u64>,
}

impl Opening {
    fn sound() -> Self {
        Self {
            configuration: Configuration::default(),
            hop_ms: HOP_MS,
            reference: sound(REFERENCE),
            index: Index {
                fine: vec![7.5; 2 * REFERENCE],
                coarse: vec![7.5; REFERENCE / 2],
                fine_energy: vec![7.5; 2 * REFERENCE + 2],
                coarse_energy: vec![7.5; REFERENCE / 2 + 2],
            },
            state: vec![7; words::STATE],
        }
    }

    fn open(&mut self) -> u32 {
        let Self {
            configuration,
            hop_ms,
            reference,
            index,
            state,
        } = self;
        open(configuration, *hop_ms, reference, index, state)
    }

    /// All that may be written.
    fn written(&self) -> String {
        format!("{:?} {:?}", self.index, self.state)
    }
}

type Change<T> = fn(&mut T);

#[test]
fn openings_are_refused_by_number() {
    let faults: [(u32, Change<Opening>); 15] = [
        (1, |o| o.configuration.minimum_readiness_duration_ms = -1.0),
        (1, |o| o.configuration.tracking_query_duration_ms = 0.0),
        (1, |o| o.configuration.minimum_active_frame_fraction = 1.1),
        (2, |o| o.hop_ms = 1.0_f64.next_down()),
        (2, |o| o.hop_ms = 1_000.0_f64.next_up()),
        (2, |o| o.hop_ms = f64::NAN),
        (3, |o| o.reference = Flat::for_frames(2, 65)),
        (3, |o| o.reference = Flat::for_frames(65_536, 1)),
        (4, |o| o.reference.values.truncate(2 * REFERENCE - 1)),
        (5, |o| o.reference.times[3] = 1e12_f64.next_up()),
        (6, |o| o.index.fine.truncate(2 * REFERENCE - 1)),
        (6, |o| o.index.coarse.truncate(REFERENCE / 2 - 1)),
        (6, |o| o.index.fine_energy.truncate(2 * REFERENCE + 1)),
        (6, |o| o.index.coarse_energy.truncate(REFERENCE / 2 + 1)),
        (255, |o| o.state.truncate(words::STATE - 1)),
    ];
    assert_eq!(Opening::sound().open(), DONE);
    for (number, fault) in faults {
        let mut opening = Opening::sound();
        fault(&mut opening);
        let before = opening.written();
        assert_eq!(opening.open(), number);
        assert_eq!(opening.written(), before, "refusal {number} wrote");
    }
}

// ---- submission

/// All that a submission is handed.
#[derive(Clone)]
struct Submission {
    state: Vec<u64>,
    index: Index,
    window: Flat,
    clock_ms: f64,
    work: Work,
    snapshot: Vec<u64>,
}

impl Submission {
    fn sound() -> Self {
        let mut opening = Opening::sound();
        assert_eq!(opening.open(), DONE);
        let work = Work {
            narrow: vec![7.5; 4 * WINDOW],
            wide: vec![7.5; 6 * (WINDOW + 1) + REFERENCE],
        };
        Self {
            state: opening.state,
            index: opening.index,
            window: sound(WINDOW),
            clock_ms: 5.0,
            work,
            snapshot: vec![7; words::SNAPSHOT],
        }
    }

    fn submit(&mut self) -> u32 {
        let Self {
            state,
            index,
            window,
            clock_ms,
            work,
            snapshot,
        } = self;
        submit(state, index, window, *clock_ms, work, snapshot)
    }

    fn written(&self) -> String {
        format!("{:?} {:?} {:?}", self.state, self.work, self.snapshot)
    }
}

#[test]
fn submissions_are_refused_by_number() {
    let faults: [(u32, Change<Submission>); 18] = [
        (6, |s| s.index.fine.truncate(2 * REFERENCE - 1)),
        (6, |s| s.index.coarse_energy.clear()),
        (7, |s| s.state[0] = words::LAYOUT + 1),
        (7, |s| s.state[6] = 0.5_f64.to_bits()),
        (8, |s| s.clock_ms = f64::NAN),
        (8, |s| s.clock_ms = f64::NEG_INFINITY),
        (9, |s| s.window = Flat::for_frames(0, 2)),
        (10, |s| s.window = Flat::for_frames(1_025, 1)),
        (10, |s| s.window = Flat::for_frames(1, 65)),
        (11, |s| s.window = Flat::for_frames(WINDOW, 0)),
        (11, |s| s.window.energies.truncate(WINDOW - 1)),
        (11, |s| s.window.values.truncate(2 * WINDOW - 1)),
        (11, |s| s.window.values[5] = -1.0),
        (12, |s| s.window.times[2] = (-1e12_f64).next_down()),
        (12, |s| s.window.energies[2] = f64::INFINITY),
        (13, |s| s.work.narrow.truncate(4 * WINDOW - 1)),
        (13, |s| s.work.wide.truncate(6 * WINDOW + 65)),
        (255, |s| s.snapshot.truncate(words::SNAPSHOT - 1)),
    ];
    let mut answered = Submission::sound();
    assert_eq!([answered.submit(), answered.submit()], [DONE, REREAD]);
    for (number, fault) in faults {
        let mut submission = Submission::sound();
        fault(&mut submission);
        let before = submission.written();
        assert_eq!(submission.submit(), number);
        assert_eq!(submission.written(), before, "refusal {number} wrote");
    }
}

#[test]
fn support_age_is_refused_by_number() {
    let mut state = Submission::sound().state;
    let mut age = 12.5;
    assert_eq!(support_age(&state, &mut age), NO_AGE);
    state[6] = 0;
    assert_eq!(support_age(&state, &mut age), 7);
    assert_eq!(support_age(&state[1..], &mut age), 255);
    assert_eq!(age, 12.5);
}

// ---- named places

unsafe extern "C" {
    #[link_name = "kistovab_store_words"]
    safe fn store_words() -> usize;
}

#[test]
fn a_store_is_as_long_as_the_library_says() {
    assert_eq!(store_words(), STORE_WORDS);
    assert_eq!(PLACES * words::STATE, STORE_WORDS);
}

/// All that keeping and restoring are handed.
#[derive(Clone, Debug, PartialEq)]
struct Placing {
    state: Vec<u64>,
    name: usize,
    store: Vec<u64>,
}

impl Placing {
    /// A state that was submitted to, and a store that keeps it as opened.
    fn sound() -> Self {
        let mut submission = Submission::sound();
        let mut store = vec![7; STORE_WORDS];
        assert_eq!(keep(&submission.state, 2, &mut store), DONE);
        assert_eq!(submission.submit(), DONE);
        let state = submission.state;
        let name = 2;
        Self { state, name, store }
    }

    fn keep(&mut self) -> u32 {
        keep(&self.state, self.name, &mut self.store)
    }

    fn restore(&mut self) -> u32 {
        restore(&mut self.state, self.name, &self.store)
    }
}

#[test]
fn keeping_and_restoring_are_refused_by_number() {
    // Each leaves the faults after it in place: the first that is tested is told.
    let faults: [(u32, Change<Placing>); 4] = [
        (15, |p| p.store[words::STATE] = words::LAYOUT + 1),
        (6, |p| p.store.truncate(STORE_WORDS - 1)),
        (14, |p| p.name = PLACES + 1),
        (255, |p| p.state.truncate(words::STATE - 1)),
    ];
    let mut placing = Placing::sound();
    for (number, fault) in faults {
        fault(&mut placing);
        let before = placing.clone();
        assert_eq!(placing.restore(), number);
        if number != 15 {
            assert_eq!(placing.keep(), number);
        }
        assert_eq!(placing, before, "refusal {number} wrote");
    }
}

#[test]
fn a_place_holds_the_words_of_the_state() {
    let mut placing = Placing::sound();
    let (state, opened) = (placing.state.clone(), Submission::sound().state);
    assert_eq!(placing.restore(), DONE);
    assert_eq!(placing.state, opened);
    placing.state = state.clone();
    assert_eq!(placing.keep(), DONE);
    assert_eq!(placing.store[words::STATE..2 * words::STATE], state);
    placing.state.fill(7);
    assert_eq!(placing.restore(), DONE);
    assert_eq!(placing.state, state);
}
