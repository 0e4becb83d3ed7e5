//! Inputs that are filled: fixed ones, and others by number. Every run makes the same.

use super::generator::FIGURES;
use super::reading::Input;
use crate::family::pattern;
use crate::random::Random;

/// Frames and bands.
const SIZES: [(usize, usize); 14] = [
    (0, 0),
    (0, 64),
    (65_535, 0),
    (1, 1),
    (65_535, 64),
    (2, 1),
    (1, 64),
    (65_535, 1),
    (2, 2),
    (3, 5),
    (7, 13),
    (101, 31),
    (250, 64),
    (1_023, 63),
];

const SEEDS: [u64; 4] = [1, 1 << 63, u64::MAX, FIGURES[1].seed];

const HOPS: [f64; 4] = [1.0, 1_000.0, 20.0, 23.22];

/// Every size at every hop, from every seed.
pub fn fixed() -> Vec<Input> {
    let mut inputs = Vec::new();
    for (frames, bands) in SIZES {
        for hop in HOPS {
            inputs.extend(SEEDS.map(|seed| Input::fitting(seed, hop, bands, frames)));
        }
    }
    inputs
}

/// Input n by chance.
pub fn random(n: u64) -> Input {
    let mut random = Random::new(pattern(n));
    let (seed, hop) = (seed(&mut random), hop(&mut random));
    let (frames, bands) = size(&mut random);
    Input::fitting(seed, hop, bands, frames)
}

/// Any but 0; some with few bits, whose first numbers have few too.
pub fn seed(random: &mut Random) -> u64 {
    match random.below(4) {
        0 => 1 << random.below(64),
        1 => 1 + random.below(1_000) as u64,
        _ => random.bits().max(1),
    }
}

pub fn hop(random: &mut Random) -> f64 {
    match random.below(8) {
        0 => random.one_of(&[1.0_f64.next_up(), 1_000.0_f64.next_down()]),
        1 => (1 + random.below(1_000)) as f64,
        2..5 => random.one_of(&HOPS),
        _ => 1.0 + random.unit() * 999.0,
    }
}

/// Mostly small; now and then many frames of few bands.
fn size(random: &mut Random) -> (usize, usize) {
    match random.below(64) {
        0 => (65_535 - random.below(3), random.below(3)),
        1 => (random.below(65_536), random.below(8)),
        2..6 => (random.below(4), random.below(65)),
        _ => (random.below(200), random.below(65)),
    }
}

#[cfg(test)]
mod tests {
    use super::super::ours::FILLED;
    use super::*;

    #[test]
    fn none_is_refused() {
        for input in fixed().into_iter().chain((0..2_000).map(random)) {
            assert_eq!(input.answer(), FILLED, "{input}");
        }
    }
}
