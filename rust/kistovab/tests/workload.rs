//! Loads: their numbers, beside a generator of the test's own; what is refused, in which order, and
//! that nothing is written then; engines and windows over them.

use kistovab::workload::{fill, frames};
use kistovab::{Configuration, Engine, FeatureFrame, FeatureWindow, Refusal, State};

const SEED: u64 = 0x9E37_79B9_7F4A_7C15;
const HOP_MS: f64 = 20.0;

/// What a load is filled into.
#[derive(Clone, Debug, PartialEq)]
struct Slices {
    times: Vec<f64>,
    energies: Vec<f64>,
    values: Vec<f32>,
}

/// Slices of those lengths that hold what no load has.
fn slices([times, energies, values]: [usize; 3]) -> Slices {
    Slices {
        times: vec![-7.5; times],
        energies: vec![7.5; energies],
        values: vec![-7.5; values],
    }
}

impl Slices {
    fn fill(&mut self, seed: u64, hop_ms: f64, bands: usize) -> Result<(), Refusal> {
        let Self {
            times,
            energies,
            values,
        } = self;
        fill(seed, hop_ms, bands, times, energies, values)
    }
}

fn flat(seed: u64, hop_ms: f64, frames: usize, bands: usize) -> Slices {
    let mut slices = slices([frames, frames, bands * frames]);
    assert_eq!(slices.fill(seed, hop_ms, bands), Ok(()));
    slices
}

// ---- numbers

#[test]
fn seed_1_gives_fixed_figures() {
    let load = flat(1, HOP_MS, 2, 2);
    assert_eq!(load.times, [0.0, 20.0]);
    assert_eq!(load.energies, [-20.0, -20.0]);
    let values: Vec<_> = load.values.into_iter().map(f64::from).collect();
    assert_eq!(values, [0.25390625, 4.25390625, 6.16015625, 0.14453125]);
}

/// The value of the number that was drawn.
fn value(number: u64) -> f32 {
    (number % 4_096) as f32 / 256.0
}

/// All values from a seed on.
fn drawn(seed: u64) -> impl Iterator<Item = f32> {
    let step = |x: &u64| {
        let x = x ^ (x << 13);
        let x = x ^ (x >> 7);
        Some(x ^ (x << 17))
    };
    std::iter::successors(Some(seed), step).skip(1).map(value)
}

#[test]
fn values_are_those_of_the_generator() {
    for seed in [1, 2, SEED, 1 << 63, u64::MAX] {
        let load = flat(seed, HOP_MS, 500, 5);
        assert_eq!(load.values, drawn(seed).take(2_500).collect::<Vec<_>>());
    }
}

#[test]
fn values_lie_from_0_up_to_16() {
    let values = flat(SEED, HOP_MS, 50_000, 2).values;
    let least = values.iter().copied().fold(f32::MAX, f32::min);
    let most = values.iter().copied().fold(0.0, f32::max);
    assert_eq!((least, most), (0.0, 4_095.0 / 256.0));
}

#[test]
fn times_are_multiples_of_the_hop_and_rounded_once() {
    for hop_ms in [1.0, 1.1, HOP_MS, 1_000.0 / 3.0, 1_000.0] {
        let load = flat(SEED, hop_ms, 65_535, 0);
        let times: Vec<_> = (0..65_535).map(|i| f64::from(i) * hop_ms).collect();
        assert_eq!(load.times, times);
        assert!(load.energies.iter().all(|energy| *energy == -20.0));
    }
}

#[test]
fn frames_hold_what_the_slices_do() {
    for (count, bands) in [(0, 0), (0, 3), (4, 0), (1, 1), (7, 3), (1_024, 64)] {
        let load = flat(SEED, 12.5, count, bands);
        let frame = |number: usize| FeatureFrame {
            recorded_time_ms: load.times[number],
            energy_dbfs: load.energies[number],
            pcen_mel: (0..bands)
                .map(|band| load.values[band * count + number])
                .collect(),
        };
        let made: Vec<_> = (0..count).map(frame).collect();
        assert_eq!(frames(SEED, 12.5, count, bands), Ok(made));
    }
}

// ---- refusals

fn refused(seed: u64, hop_ms: f64, bands: usize, lengths: [usize; 3]) -> Option<Refusal> {
    let mut lent = slices(lengths);
    let before = lent.clone();
    let refusal = lent.fill(seed, hop_ms, bands).err();
    assert!(refusal.is_none() || lent == before, "{refusal:?} wrote");
    refusal
}

#[test]
fn slices_are_refused_in_order() {
    let wrong = [65_536, 3, 5];
    assert_eq!(refused(0, 0.5, 65, wrong), Some(Refusal::SeedZero));
    assert_eq!(refused(1, 0.5, 65, wrong), Some(Refusal::HopOutOfRange));
    for (bands, lengths) in [(65, [4, 3, 5]), (2, wrong), (usize::MAX, [2, 2, 2])] {
        let refusal = refused(1, HOP_MS, bands, lengths);
        assert_eq!(refusal, Some(Refusal::ReferenceTooLarge));
    }
    for lengths in [[4, 3, 8], [4, 5, 8], [4, 4, 7], [4, 4, 9], [0, 0, 1]] {
        let refusal = refused(1, HOP_MS, 2, lengths);
        assert_eq!(refusal, Some(Refusal::ReferenceMiscounted));
    }
}

#[test]
fn frames_are_refused_in_order() {
    let huge = usize::MAX;
    let refused = |seed, hop_ms, count, bands| frames(seed, hop_ms, count, bands).err();
    assert_eq!(refused(0, f64::NAN, huge, huge), Some(Refusal::SeedZero));
    let hop = Some(Refusal::HopOutOfRange);
    assert_eq!(refused(1, f64::NAN, huge, huge), hop);
    for (count, bands) in [(huge, huge), (huge, 0), (0, huge), (65_536, 1), (1, 65)] {
        let refusal = refused(1, HOP_MS, count, bands);
        assert_eq!(refusal, Some(Refusal::ReferenceTooLarge));
    }
}

#[test]
fn hops_are_refused_beyond_1_to_1_000_ms() {
    let beyond = [
        1.0_f64.next_down(),
        1_000.0_f64.next_up(),
        0.0,
        -HOP_MS,
        f64::NAN,
        f64::INFINITY,
    ];
    for hop_ms in beyond {
        let refusal = refused(1, hop_ms, 2, [4, 4, 8]);
        assert_eq!(refusal, Some(Refusal::HopOutOfRange));
    }
}

#[test]
fn limits_are_no_refusals() {
    assert_eq!(refused(1, 1.0, 64, [65_535, 65_535, 64 * 65_535]), None);
    assert_eq!(refused(u64::MAX, 1_000.0, 64, [0; 3]), None);
    assert_eq!(refused(1, HOP_MS, 0, [3, 3, 0]), None);
}

// ---- engines and windows

fn opened(frames: &[FeatureFrame]) -> Engine {
    Engine::new(frames, HOP_MS, Configuration::default())
}

fn load(count: usize, bands: usize) -> Vec<FeatureFrame> {
    frames(SEED, HOP_MS, count, bands).expect("a load within the limits")
}

/// How the engine stands once it was handed three seconds of a load.
fn state_after_a_window(mut engine: Engine, bands: usize) -> State {
    let window = FeatureWindow::new(load(150, bands)).expect("frames without fault");
    engine.process(&window, 0.0).state
}

#[test]
fn an_engine_over_a_load_has_an_index() {
    for (count, bands) in [(2, 1), (2, 64), (300, 8), (65_535, 1)] {
        let engine = opened(&load(count, bands));
        let size = format!("reference_frames: {count}, reference_bands: {bands}");
        assert!(format!("{engine:?}").contains(&size), "{engine:?}");
        assert_ne!(state_after_a_window(engine, bands), State::Failed);
    }
    for (count, bands) in [(0, 1), (1, 1), (2, 0)] {
        let engine = opened(&load(count, bands));
        assert_eq!(state_after_a_window(engine, 1), State::Failed);
    }
}

#[test]
fn a_load_is_a_window_that_is_answered() {
    let mut engine = opened(&load(300, 8));
    for (count, bands) in [(1, 1), (1, 64), (150, 8), (1_024, 64)] {
        let window = FeatureWindow::new(load(count, bands)).expect("frames without fault");
        assert!(engine.try_process(&window, 0.0).is_ok());
    }
}

#[test]
fn a_window_is_found_in_the_load_that_it_was_cut_from() {
    let reference = load(1_000, 8);
    for first in [0, 100, 333, 850] {
        let mut heard = reference[first..first + 150].to_vec();
        for (frame, begun) in heard.iter_mut().zip(&reference) {
            frame.recorded_time_ms = begun.recorded_time_ms;
        }
        let window = FeatureWindow::new(heard).expect("frames without fault");
        let shown = opened(&reference).process(&window, 0.0);
        let place = shown.estimate.expect("the place was found");
        assert!((place.offset_ms - first as f64 * HOP_MS).abs() < 1.0);
    }
}
