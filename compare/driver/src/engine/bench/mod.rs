//! Opening and a submission of each kind of the port beside the two builds of the Rust, as the
//! tables for docs/BENCHMARKS.md; a million submissions to one engine; the stack that a call takes.

mod long;
mod marks;
mod sides;
mod stack;

use super::ours::{self, Index};
use super::session::{index_lengths, work_lengths, Opening};
use super::words;
use crate::matcher::bench::sides::Side;
use crate::matcher::cases;
use crate::sessions::session::{Soundtrack, Window};
use sides::{Operation, Sides, Size, HOP};
use sonalign::types::Configuration;
use std::time::Duration;

const SIZES: [Size; 2] = [
    Size {
        bands: 64,
        frames: 65_535,
        window: 250,
    },
    Size {
        bands: 16,
        frames: 8_000,
        window: 150,
    },
];

const HEAD: &str = "\
| operation | bands × frames | window | ours, µs | comparison build, µs | ratio | ratio in the rounds: least, median, most | Rust's own, µs | ratio |
|---|---|---|---|---|---|---|---|---|
";

pub fn table() -> String {
    // First, while little else is in memory.
    let long = long();
    let (rows, marked): (Vec<_>, Vec<_>) = SIZES.into_iter().map(rows).unzip();
    let (rows, marked) = (rows.concat(), marked.concat());
    format!(
        "{HEAD}{rows}\n\
         Processor time, the least of the rounds in turns, each side for itself. Hop {HOP}. Ours are \
         the C calls. The Rust's submission is `FeatureWindow::new` of ready frames, and `process`; \
         its opening is `Engine::new`.\n\n{}{marked}\n{long}\n{}",
        marks::HEAD,
        stacks()
    )
}

/// The lines of opening and submissions, and those of a mark.
fn rows(size: Size) -> (String, String) {
    let mut sides = Sides::new(size);
    let marked = marks::rows(size, &sides);
    let lines = Operation::ALL
        .into_iter()
        .map(|operation| line(&mut sides, size, operation))
        .collect();
    (lines, marked)
}

fn line(sides: &mut Sides, size: Size, operation: Operation) -> String {
    let rounds: Vec<[f64; 3]> = (0..operation.rounds())
        .map(|_| Side::ALL.map(|side| sides.measure(operation, side).as_secs_f64() * 1e6))
        .collect();
    let least = |side: Side| {
        let times = rounds.iter().map(|round| round[side as usize]);
        times.fold(f64::INFINITY, f64::min)
    };
    let [ours, replaced, own] = Side::ALL.map(least);
    let mut ratios: Vec<f64> = rounds.iter().map(|round| round[0] / round[1]).collect();
    ratios.sort_by(f64::total_cmp);
    format!(
        "| {} | {} × {} | {} | {ours:.1} | {replaced:.1} | {:.2} | {:.2}, {:.2}, {:.2} | {own:.1} | {:.2} |\n",
        operation.name(),
        size.bands,
        size.frames,
        size.window,
        ours / replaced,
        ratios[0],
        ratios[ratios.len() / 2],
        ratios[ratios.len() - 1],
        ours / own,
    )
}

fn long() -> String {
    let long = long::measured();
    format!(
        "A million submissions to one engine ({} computed, {} answers Locked): {} for the first ten \
         thousand, {} for the last; {} kB resident after the first ten thousand, {} kB at the end.\n",
        long.computed,
        long.locked,
        sum_and_tenth(&long.first),
        sum_and_tenth(&long.last),
        long.before,
        long.after,
    )
}

/// A load from outside adds to the sum and even to the median; the quickest tenth hardly sees it.
fn sum_and_tenth(times: &[Duration]) -> String {
    let sum: Duration = times.iter().sum();
    let mut sorted = times.to_vec();
    sorted.sort();
    let tenth = sorted.get(sorted.len() / 10).copied().unwrap_or_default();
    format!(
        "{:.1} ms (a tenth within {:.1} µs each)",
        sum.as_secs_f64() * 1e3,
        tenth.as_secs_f64() * 1e6
    )
}

/// Opening, a whole search and a re-reading.
fn stacks() -> String {
    let case = cases::measured(HOP, 16, 2_000, 250);
    let opening = Opening {
        configuration: Configuration::default(),
        hop: HOP,
        reference: Soundtrack {
            bands: 16,
            values: case.reference.by_band(),
            times: case.reference.times,
        },
        short: None,
    };
    let window = Window {
        bands: 16,
        values: case.window.by_band(),
        energies: vec![-20.0; 250],
        times: case.window.times,
    };
    let mut index = Index::new(index_lengths(2_000, 16));
    let mut state = vec![0; words::STATE];
    let opened = stack::touched(|| {
        ours::open(&opening, &mut index, &mut state);
    });
    let [narrow, wide] = work_lengths(16, 250, 2_000);
    let (mut work32, mut work64) = (vec![0.0; narrow], vec![0.0; wide]);
    let mut snapshot = vec![0; words::SNAPSHOT];
    let mut submit = || {
        let lengths = index.lengths();
        let work = (&mut work32[..], &mut work64[..]);
        ours::submit(
            &mut state,
            &index,
            lengths,
            &window,
            1.0,
            work,
            &mut snapshot,
        );
    };
    let searched = stack::touched(&mut submit);
    let again = stack::touched(&mut submit);
    let aged = stack::touched(|| {
        ours::support_age(&state, 0.0);
    });
    let mut store = vec![0; ours::words()[2]];
    let kept = stack::touched(|| {
        ours::keep(&state, 1, &mut store);
    });
    let restored = stack::touched(|| {
        ours::restore(&mut state, 1, &store);
    });
    format!(
        "Stack touched by a call, with the caller's few hundred bytes: opening {opened}, whole search \
         {searched}, re-reading {again}, support age {aged}, keep {kept}, restore {restored} bytes.\n"
    )
}
