//! What a value of a load takes, ours beside the driver's own loop, as the table for
//! docs/BENCHMARKS.md.

use super::generator::{self, FIGURES};
use super::ours::{self, FILLED};
use crate::matcher::bench::clock::worked;
use crate::sessions::session::Window;
use std::hint::black_box;

const ROUNDS: usize = 31;

/// Values that a side fills in a round, in one load or in many.
const VALUES: usize = 64 * 65_535;

const SEED: u64 = FIGURES[1].seed;
const HOP: f64 = 20.0;

/// Bands and frames: two references, and a window.
const SIZES: [(usize, usize); 3] = [(64, 65_535), (16, 8_000), (64, 250)];

const HEAD: &str = "\
| load, bands × frames | ours, ns | Rust's, ns | ratio |
|---|---|---|---|
";

pub fn table() -> String {
    let rows: String = SIZES
        .into_iter()
        .map(|(bands, frames)| line(bands, frames))
        .collect();
    format!(
        "{HEAD}{rows}\n\
         Nanoseconds of processor time a value, the least of {ROUNDS} rounds in turns. The Rust's is \
         a plain loop over the same slices.\n"
    )
}

fn line(bands: usize, frames: usize) -> String {
    let mut load = ours::load(SEED, HOP, bands, frames).expect("nothing to refuse");
    let [mut ours, mut theirs] = [f64::INFINITY; 2];
    for _ in 0..ROUNDS {
        ours = ours.min(round(&mut load, fill_by_us));
        theirs = theirs.min(round(&mut load, fill_by_rust));
    }
    format!(
        "| {bands} × {frames} | {ours:.2} | {theirs:.2} | {:.2} |\n",
        ours / theirs
    )
}

/// Nanoseconds a value.
fn round(load: &mut Window, fill: fn(&mut Window)) -> f64 {
    let repeats = VALUES / load.values.len();
    let begun = worked();
    for _ in 0..repeats {
        fill(black_box(load));
    }
    let taken = worked() - begun;
    taken.as_nanos() as f64 / (repeats * load.values.len()) as f64
}

fn fill_by_us(load: &mut Window) {
    let (seed, hop) = black_box((SEED, HOP));
    let (times, energies) = (&mut load.times, &mut load.energies);
    let code = ours::fill(seed, hop, load.bands, times, energies, &mut load.values);
    assert_eq!(code, FILLED, "filled");
}

fn fill_by_rust(load: &mut Window) {
    let (seed, hop) = black_box((SEED, HOP));
    let (times, energies) = (&mut load.times, &mut load.energies);
    generator::fill(seed, hop, times, energies, &mut load.values);
}
