//! The cases of crates/matcher_replay with the Rust's answers, one to a line.

use super::case::{Candidate, Frames};
use super::theirs;
use crate::family::pattern;
use crate::recorded::{self, value_at};
use std::fmt::Write;

const HOPS: [f64; 8] = [10.0, 20.0, 20.0, 23.22, 50.0, 250.0, 501.0, 1000.0];
const CASES: u64 = 270;
/// The window's first time.
const BEGIN: f64 = 5_000.0;
/// The program's arrays: the index is digested with what stands behind it.
const ROOM: [usize; 4] = [1_600, 400, 1_604, 404];

struct Case {
    seed: u64,
    hop: f64,
    period: usize,
    bands: usize,
    frames: usize,
    window: usize,
    from: usize,
    reach: f64,
}

/// Whether the list that stands is the Rust's.
pub fn check() -> bool {
    recorded::stands("list of searches", "crates/matcher_replay/stdin", &lines())
}

/// The last line is wrong.
pub fn lines() -> String {
    recorded::with_wrong_line((0..CASES).map(|number| line(&case(number))).collect())
}

/// Sizes at the edges of what is searched, and between.
fn case(number: u64) -> Case {
    let draw = |turn: u64, below: u64| pattern(number * 16 + turn) % below;
    let hop = HOPS[draw(0, 8) as usize];
    let context = (250.0 / hop).round().max(1.0) as usize;
    let least = 2 * context + 17;
    let window = match draw(1, 6) {
        0 => least - 1,
        1 => least,
        _ => (least + draw(2, 50) as usize).min(120),
    };
    let frames = match draw(3, 8) {
        0 => window - 2 * context,
        1 => window - 2 * context - 1,
        2 => 1 + draw(4, 3) as usize,
        _ => 100 + draw(4, 301) as usize,
    };
    let period = match draw(5, 3) {
        0 => 1 + draw(6, 60) as usize,
        _ => 8_192,
    };
    Case {
        seed: draw(7, 65_536),
        hop,
        period,
        bands: 1 + draw(8, 4) as usize,
        frames,
        window,
        from: draw(9, frames as u64) as usize,
        reach: [0.0, 0.25 * hop, 3.0 * hop, 160.0, 1e9][draw(10, 5) as usize],
    }
}

fn line(case: &Case) -> String {
    let numbers = [case.period, case.bands, case.frames, case.window, case.from];
    let mut words = vec![case.seed, case.hop.to_bits()];
    words.extend(numbers.map(|number| number as u64));
    words.push(case.reach.to_bits());
    words.extend(answers(case));
    let mut text = String::new();
    for (number, word) in words.iter().enumerate() {
        let gap = if number == 0 { "" } else { " " };
        write!(text, "{gap}{word:016x}").expect("a string takes all");
    }
    text + "\n"
}

fn answers(case: &Case) -> [u64; 6] {
    let reference = Frames {
        bands: case.bands,
        times: times(0.0, case.hop, case.frames),
        values: by_frame(case.bands, case.frames, |band, frame| {
            sound_at(case.seed, case.period, band, frame)
        }),
    };
    let window = Frames {
        bands: case.bands,
        times: times(BEGIN, case.hop, case.window),
        values: by_frame(case.bands, case.window, |band, frame| {
            heard_at(case, band, case.from + frame)
        }),
    };
    let Some(matcher) = theirs::Matcher::new(&reference, case.hop) else {
        return [0; 6];
    };
    let query = theirs::Query::new(&window);
    let offset = case.from as f64 * case.hop - BEGIN;
    let range = (offset - case.reach, offset + case.reach);
    let whole = matcher.search(&query, None);
    let local = matcher.search(&query, Some(range));
    [
        1,
        index_digest(&matcher),
        whole.len() as u64,
        digest(&whole),
        local.len() as u64,
        digest(&local),
    ]
}

fn times(start: f64, hop: f64, frames: usize) -> Vec<f64> {
    (0..frames).map(|i| start + i as f64 * hop).collect()
}

fn by_frame(bands: usize, frames: usize, value: impl Fn(usize, usize) -> f32) -> Vec<f32> {
    let all = (0..frames).flat_map(|frame| (0..bands).map(move |band| (band, frame)));
    all.map(|(band, frame)| value(band, frame)).collect()
}

/// As sound.rt of matcher_replay makes it.
fn sound_at(seed: u64, period: usize, band: usize, frame: usize) -> f32 {
    value_at(seed, (band * 8_192 + frame % period % 8_192) as u64)
}

fn heard_at(case: &Case, band: usize, frame: usize) -> f32 {
    sound_at(case.seed, case.period, band, frame) * 0.75
        + sound_at(case.seed + 1, 8_192, band, frame) * 0.25
}

fn index_digest(matcher: &theirs::Matcher) -> u64 {
    let (fine, coarse, fine_energy, coarse_energy) = matcher.index();
    let wide = |row: Vec<f32>| row.into_iter().map(f64::from).collect();
    let rows: [Vec<f64>; 4] = [wide(fine), wide(coarse), fine_energy, coarse_energy];
    let mut word = 0;
    for (mut row, room) in rows.into_iter().zip(ROOM) {
        row.resize(room, 0.0);
        word = row.into_iter().fold(word, with);
    }
    word
}

/// The numbers of eight candidates, zeros behind the last.
fn digest(candidates: &[Candidate]) -> u64 {
    let mut numbers: Vec<f64> = candidates.iter().flatten().copied().collect();
    numbers.resize(40, 0.0);
    numbers.into_iter().fold(0, with)
}

/// As digest.rt of matcher_replay has it.
fn with(word: u64, x: f64) -> u64 {
    let bits = if x.is_nan() {
        0x7ff8 << 48
    } else {
        x.to_bits()
    };
    word.rotate_left(9).wrapping_add(bits)
}
