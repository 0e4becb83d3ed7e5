//! Times of the three sides, taken in turns, so that all see the same machine.

use super::clock::worked;
use super::sides::Side;

/// Milliseconds of each side in each round.
pub struct Taken(Vec<[f64; 3]>);

impl Taken {
    pub fn new(rounds: usize, mut act: impl FnMut(Side)) -> Self {
        let mut once = |side| {
            let begun = worked();
            act(side);
            (worked() - begun).as_secs_f64() * 1e3
        };
        Self((0..rounds).map(|_| Side::ALL.map(&mut once)).collect())
    }

    /// Load only adds, so the least is nearest to what the side takes.
    pub fn least(&self, side: Side) -> f64 {
        let times = self.0.iter().map(|round| round[side as usize]);
        times.fold(f64::INFINITY, f64::min)
    }

    /// How the ratio of two sides lay in the rounds: least, median, most.
    pub fn ratios(&self, above: Side, below: Side) -> [f64; 3] {
        let ratio = |round: &[f64; 3]| round[above as usize] / round[below as usize];
        let mut ratios: Vec<f64> = self.0.iter().map(ratio).collect();
        ratios.sort_by(f64::total_cmp);
        [
            ratios[0],
            ratios[ratios.len() / 2],
            ratios[ratios.len() - 1],
        ]
    }
}
