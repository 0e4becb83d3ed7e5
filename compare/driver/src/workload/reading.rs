//! The call's rules in the driver's own reading: what is refused, and with which number.

use super::ours::FILLED;
use crate::value::Value;
use std::fmt;

/// The refusals in the order in which they are looked for.
pub const REFUSALS: [u32; 4] = [16, 2, 3, 4];

const MOST_FRAMES: usize = 65_535;
const MOST_BANDS: usize = 64;

/// What is handed in: three numbers, and the length of each slice.
#[derive(Clone, Copy, Debug)]
pub struct Input {
    pub seed: u64,
    pub hop: f64,
    pub bands: usize,
    pub times: usize,
    pub energies: usize,
    pub values: usize,
}

impl Input {
    /// With slices as long as they have to be.
    pub fn fitting(seed: u64, hop: f64, bands: usize, frames: usize) -> Self {
        Self {
            seed,
            hop,
            bands,
            times: frames,
            energies: frames,
            values: bands * frames,
        }
    }

    /// Every refusal that applies, in order.
    pub fn faults(&self) -> Vec<u32> {
        // No product of two lengths is too large for it.
        let values = self.bands as u128 * self.times as u128;
        let applies = [
            self.seed == 0,
            !(1.0..=1_000.0).contains(&self.hop),
            self.times > MOST_FRAMES || self.bands > MOST_BANDS,
            self.energies != self.times || self.values as u128 != values,
        ];
        let named = REFUSALS.into_iter().zip(applies);
        named
            .filter(|&(_, applies)| applies)
            .map(|(n, _)| n)
            .collect()
    }

    pub fn answer(&self) -> u32 {
        self.faults().first().copied().unwrap_or(FILLED)
    }

    /// Whether the load is of the largest size.
    pub fn is_largest(&self) -> bool {
        self.times == MOST_FRAMES && self.bands == MOST_BANDS
    }
}

impl fmt::Display for Input {
    fn fmt(&self, f: &mut fmt::Formatter) -> fmt::Result {
        let Self {
            seed,
            hop,
            bands,
            times,
            energies,
            values,
        } = self;
        let hop = hop.shown();
        write!(
            f,
            "seed {seed}, hop {hop}, {bands} bands, {times} times, {energies} energies, {values} values"
        )
    }
}

#[cfg(test)]
mod tests {
    use super::*;

    fn sound() -> Input {
        Input::fitting(1, 20.0, 3, 4)
    }

    #[test]
    fn what_fits_is_filled() {
        for (bands, frames) in [(3, 4), (0, 0), (64, 0), (0, 65_535), (64, 65_535)] {
            for hop in [1.0, 1_000.0] {
                let input = Input::fitting(u64::MAX, hop, bands, frames);
                assert_eq!(input.answer(), FILLED, "{input}");
            }
        }
    }

    #[test]
    fn each_limit_is_refused() {
        assert_eq!(Input { seed: 0, ..sound() }.faults(), [16]);
        for hop in [f64::NAN, -0.0, f64::INFINITY, 1.0_f64.next_down()] {
            assert_eq!(Input { hop, ..sound() }.faults(), [2]);
        }
        assert_eq!(Input::fitting(1, 20.0, 1, 65_536).faults(), [3]);
        assert_eq!(Input::fitting(1, 20.0, 65, 1).faults(), [3]);
        for (energies, values) in [(0, 12), (3, 12), (5, 12), (4, 0), (4, 11), (4, 13)] {
            let mut input = sound();
            (input.energies, input.values) = (energies, values);
            assert_eq!(input.faults(), [4], "{input}");
        }
    }

    #[test]
    fn the_first_is_answered() {
        let mut input = sound();
        input.values = 0;
        assert_eq!(input.answer(), 4);
        input.bands = usize::MAX;
        assert_eq!(input.answer(), 3);
        input.hop = 0.0;
        assert_eq!(input.answer(), 2);
        input.seed = 0;
        assert_eq!(input.answer(), 16);
        assert_eq!(input.faults(), REFUSALS);
    }

    #[test]
    fn a_product_that_wraps_is_no_length() {
        let bands = 1 << 62;
        let input = Input {
            bands,
            values: 0,
            ..sound()
        };
        assert_eq!(input.faults(), [3, 4]);
    }
}
