//! Cases by number: every run makes the same.

use super::case::{Case, Frames};
use crate::family::pattern;
use crate::random::Random;
use crate::timeline::reach_step;
use crate::workload::ours;

const HOPS: [f64; 19] = [
    1.0,
    2.5,
    10.0,
    16.0,
    20.0,
    20.0,
    23.22,
    40.0,
    50.0,
    100.0,
    125.0,
    250.0,
    250.0,
    375.0,
    500.0,
    500.000_000_000_000_06,
    501.0,
    999.5,
    1000.0,
];

/// Values from silence to the largest f32, by kind.
#[derive(Clone, Copy)]
enum Sound {
    /// Loud and soft by chance.
    Noise,
    /// Noise that repeats every so many frames, so that places score the same.
    Repeats(usize),
    /// All the same: centred to zeros or nearly so.
    Flat,
    Silence,
    /// Any finite f32 that is not negative, subnormal ones too.
    Extreme,
    /// A few loud frames in silence.
    Sparse,
}

/// The 250 ms in frames, at least 1.
pub fn radius(hop: f64) -> usize {
    (250.0 / hop).round().max(1.0) as usize
}

/// Case n of small sizes.
pub fn small(n: u64) -> Case {
    let mut random = Random::new(pattern(n));
    let hop = hop(&mut random);
    let bands = random.one_of(&[1, 1, 2, 2, 3, 4, 5, 8, 13]);
    let needed = 2 * radius(hop) + 17;
    let frames = frames_beside(&mut random, needed);
    let reference_frames = match random.below(12) {
        0 => random.below(6),
        1 => frames.saturating_sub(2 * radius(hop)),
        2 => frames.saturating_sub(2 * radius(hop) + 1),
        _ => frames + random.below(200),
    };
    let mut case = make(&mut random, hop, bands, reference_frames, frames);
    flaw(&mut random, &mut case);
    case
}

/// Case n of the largest sizes: 65,535 frames and 64 bands, a window of 1,024 frames.
pub fn largest(n: u64) -> Case {
    let mut random = Random::new(pattern(!n));
    let hop = [20.0, 23.22, 1.0, 250.0][n as usize % 4];
    make(&mut random, hop, 64, 65_535, 1_024)
}

/// What is measured: the seeds of the reference, and of the noise that a window hears it with.
pub const FILM: u64 = 88_172_645_463_325_252;
const NOISE: u64 = 123_456_789_362_436_069;

/// A case for measuring, all of loads: a window cut out of one, louder and softer by another.
pub fn measured(hop: f64, bands: usize, reference_frames: usize, frames: usize) -> Case {
    let load = |seed, frames| ours::load(seed, hop, bands, frames).expect("nothing to refuse");
    let (film, noise) = (load(FILM, reference_frames), load(NOISE, frames));
    let at = reference_frames / 3;
    let bands_heard = film.values.chunks_exact(reference_frames);
    let heard = bands_heard.flat_map(|band| &band[at..at + frames]);
    // From 0.75 to 1.25.
    let values: Vec<f32> = heard
        .zip(&noise.values)
        .map(|(value, noise)| value * (0.75 + noise / 32.0))
        .collect();
    let offset = at as f64 * hop - 5_000.0;
    Case {
        hop,
        reference: Frames::of_bands(bands, film.times, &film.values),
        window: Frames::of_bands(bands, regular(5_000.0, hop, frames), &values),
        ranges: vec![(offset - 100.0, offset + 100.0)],
    }
}

fn hop(random: &mut Random) -> f64 {
    if random.one_in(5) {
        1.0 + random.unit() * 999.0
    } else {
        random.one_of(&HOPS)
    }
}

/// A window's length at either side of what a search needs, or longer.
fn frames_beside(random: &mut Random, needed: usize) -> usize {
    match random.below(8) {
        0 => needed - 1,
        1 => needed,
        2 => random.below(needed),
        _ => needed + random.below(60),
    }
}

fn make(
    random: &mut Random,
    hop: f64,
    bands: usize,
    reference_frames: usize,
    frames: usize,
) -> Case {
    let kind = kind(random);
    let start = start(random);
    let reference = Frames {
        bands,
        times: regular(start, hop, reference_frames),
        values: sound(random, kind, bands, reference_frames),
    };
    let at = random.below(reference_frames.max(1));
    let begin = self::start(random);
    let window = Frames {
        bands,
        times: regular(begin, hop, frames),
        values: heard(random, &reference, at, frames),
    };
    let offset = start + at as f64 * hop - begin;
    let ranges = (0..3).map(|_| range(random, offset, hop)).collect();
    Case {
        hop,
        reference,
        window,
        ranges,
    }
}

/// What a search may have to turn down: times off their places, values that no band may hold,
/// another number of bands.
fn flaw(random: &mut Random, case: &mut Case) {
    if random.one_in(25) {
        let kind = kind(random);
        let bands = case.window.bands + 1;
        case.window.values = sound(random, kind, bands, case.window.len());
        case.window.bands = bands;
    }
    jitter(random, &mut case.reference.times, case.hop);
    jitter(random, &mut case.window.times, case.hop);
    if random.one_in(20) {
        spoil(random, &mut case.reference.values);
    }
    if random.one_in(20) {
        spoil(random, &mut case.window.values);
    }
}

fn kind(random: &mut Random) -> Sound {
    match random.below(10) {
        0 => Sound::Repeats(1 + random.below(40)),
        1 => Sound::Repeats(4 * (1 + random.below(10))),
        2 => Sound::Flat,
        3 => Sound::Silence,
        4 => Sound::Extreme,
        5 => Sound::Sparse,
        _ => Sound::Noise,
    }
}

fn start(random: &mut Random) -> f64 {
    match random.below(8) {
        0 => 0.0,
        1 => -0.0,
        2 => 1e12 - 70_000_000.0,
        3 => -1e12,
        4 => (random.unit() - 0.5) * 2e12,
        5 | 6 => (random.below(20_000) as f64 - 10_000.0) * 125.0,
        _ => (random.unit() - 0.5) * 1e7,
    }
}

fn regular(start: f64, hop: f64, frames: usize) -> Vec<f64> {
    (0..frames).map(|i| start + i as f64 * hop).collect()
}

fn sound(random: &mut Random, kind: Sound, bands: usize, frames: usize) -> Vec<f32> {
    let mut values = Vec::with_capacity(bands * frames);
    for frame in 0..frames {
        for band in 0..bands {
            values.push(match kind {
                Sound::Noise => noise(random),
                Sound::Repeats(period) => {
                    let again = (frame % period) * bands + band;
                    values.get(again).copied().unwrap_or_else(|| noise(random))
                }
                Sound::Flat => 3.25,
                Sound::Silence => 0.0,
                Sound::Extreme => f32::from_bits((random.bits() % 0x7f80_0000) as u32),
                Sound::Sparse if random.one_in(30) => noise(random),
                Sound::Sparse => 0.0,
            });
        }
    }
    values
}

fn noise(random: &mut Random) -> f32 {
    let x = random.unit() as f32;
    if random.one_in(4) {
        x * 40.0
    } else {
        x * x
    }
}

/// What a window hears of the reference from frame `at` on: the same, louder or softer, with or
/// without noise, or something else.
fn heard(random: &mut Random, reference: &Frames, at: usize, frames: usize) -> Vec<f32> {
    let bands = reference.bands;
    let other = kind(random);
    if random.one_in(8) {
        return sound(random, other, bands, frames);
    }
    let gain = random.one_of(&[1.0f32, 1.0, 0.5, 0.8, 3.0]);
    let dirt = random.one_of(&[0.0f32, 0.0, 0.05, 0.5]);
    let count = reference.len();
    let mut values = Vec::with_capacity(bands * frames);
    for frame in 0..frames {
        for band in 0..bands {
            let from = (at + frame) % count.max(1);
            let clean = reference.values.get(from * bands + band).copied();
            let value = clean.unwrap_or(0.0) * gain + noise(random) * dirt;
            values.push(if value.is_finite() { value } else { f32::MAX });
        }
    }
    values
}

/// Times off by chance: mostly not at all, sometimes just within or just beyond the tolerance.
fn jitter(random: &mut Random, times: &mut [f64], hop: f64) {
    if times.is_empty() {
        return;
    }
    let at = random.below(times.len());
    match random.below(16) {
        0 => times[at] += hop * 0.05,
        1 => times[at] += hop * 0.049_999,
        2 => times[at] -= hop * 0.024,
        3 => times[at] = f64::NAN,
        4 => times[at] = f64::INFINITY,
        5 => {
            for time in times {
                *time += (random.unit() - 0.5) * hop * 0.045;
            }
        }
        6 => reach_step(times, hop, at, random.one_in(2)),
        _ => {}
    }
}

/// One value that no band may hold, or -0.0, which it may.
fn spoil(random: &mut Random, values: &mut [f32]) {
    if values.is_empty() {
        return;
    }
    let at = random.below(values.len());
    values[at] = random.one_of(&[f32::NAN, f32::INFINITY, -1.0, -0.0, -1e-45]);
}

fn range(random: &mut Random, offset: f64, hop: f64) -> (f64, f64) {
    let centre = offset + (random.unit() - 0.5) * 10.0 * hop;
    match random.below(12) {
        0 => (centre, centre),
        1 => (centre + hop, centre - hop),
        2 => (f64::NEG_INFINITY, centre),
        3 => (centre, f64::NAN),
        4 => (-1e300, 1e300),
        5 => (-1e13, centre),
        6 => (centre, 1e13),
        7 => (offset - 3.0 * hop, offset + 3.0 * hop),
        8 => (offset, offset + 0.5 * hop),
        _ => (centre - 160.0, centre + 160.0),
    }
}

#[cfg(test)]
mod tests {
    use super::*;

    #[test]
    fn the_measured_window_is_heard_at_a_third() {
        let case = measured(20.0, 2, 30, 4);
        assert_eq!(case.reference.times, regular(0.0, 20.0, 30));
        assert_eq!(case.ranges, [(-4_900.0, -4_700.0)]);
        for (at, heard) in case.window.values.iter().enumerate() {
            let clean = case.reference.values[10 * 2 + at];
            assert!((0.75 * clean..1.25 * clean).contains(heard) || clean == 0.0);
        }
    }
}
