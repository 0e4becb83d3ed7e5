//! A mark and a rerun: keeping and restoring a state beside clones of the Rust's engine. These copy
//! its index too, so an engine without index is cloned beside it, with the same state.

use super::super::ours::{self, COMPUTED};
use super::sides::{Sides, Size};
use crate::matcher::bench::clock::worked;
use sonalign::engine::Engine;
use std::hint::black_box;

const ROUNDS: usize = 31;
/// A call of the port takes less than a clock tells.
const CALLS: u32 = 1_000;

pub const HEAD: &str = "\
| call | bands × frames | ours, µs | comparison build, a clone, µs | ratio | a clone without index, µs | ratio |
|---|---|---|---|---|---|---|
";

pub fn rows(size: Size, sides: &Sides) -> String {
    let (mut state, engine, bare) = sides.marked();
    let mut store = vec![0; ours::words()[2]];
    let kept = least(CALLS, || {
        assert_eq!(ours::keep(black_box(&state), 8, &mut store), COMPUTED);
    });
    let before = state.clone();
    let restored = least(CALLS, || {
        assert_eq!(ours::restore(&mut state, 8, black_box(&store)), COMPUTED);
    });
    assert_eq!(state, before);
    let (cloned, copied) = (clones(1, &engine), clones(CALLS, &bare));
    line("keep", size, kept, cloned, copied) + &line("restore", size, restored, cloned, copied)
}

/// A mark, and a rerun from it, is a clone that takes another's place.
fn clones(calls: u32, engine: &Engine) -> f64 {
    let mut mark = engine.clone();
    least(calls, || mark = black_box(engine).clone())
}

/// Microseconds a call, in the quickest round.
fn least(calls: u32, mut call: impl FnMut()) -> f64 {
    let round = |_| {
        let begun = worked();
        for _ in 0..calls {
            call();
        }
        (worked() - begun).as_secs_f64() * 1e6 / f64::from(calls)
    };
    (0..ROUNDS).map(round).fold(f64::INFINITY, f64::min)
}

fn line(call: &str, size: Size, ours: f64, cloned: f64, copied: f64) -> String {
    format!(
        "| {call} | {} × {} | {ours:.2} | {cloned:.1} | {:.5} | {copied:.2} | {:.1} |\n",
        size.bands,
        size.frames,
        ours / cloned,
        ours / copied
    )
}
