//! Loads by lines of the driver's own: the rules, over the 64-bit generator of Marsaglia's "Xorshift
//! RNGs" (Journal of Statistical Software 8, 2003) with the shifts 13, 7 and 17.

use super::reading::Input;
use crate::sessions::session::Window;

/// The numbers that a seed draws. The seed is none of them.
pub struct Draws(u64);

impl Draws {
    pub fn of(seed: u64) -> Self {
        Self(seed)
    }
}

impl Iterator for Draws {
    type Item = u64;

    fn next(&mut self) -> Option<u64> {
        self.0 ^= self.0 << 13;
        self.0 ^= self.0 >> 7;
        self.0 ^= self.0 << 17;
        Some(self.0)
    }
}

/// Whole 256ths from 0 to 15.99609375, so exact.
pub fn value_of(draw: u64) -> f32 {
    (draw % 4_096) as f32 / 256.0
}

/// Fills slices whose lengths fit.
pub fn fill(seed: u64, hop: f64, times: &mut [f64], energies: &mut [f64], values: &mut [f32]) {
    for (frame, time) in times.iter_mut().enumerate() {
        *time = frame as f64 * hop;
    }
    energies.fill(-20.0);
    for (value, draw) in values.iter_mut().zip(Draws::of(seed)) {
        *value = value_of(draw);
    }
}

/// The load of an input that is not refused.
pub fn load(input: &Input) -> Window {
    let mut load = Window {
        bands: input.bands,
        times: vec![0.0; input.times],
        energies: vec![0.0; input.energies],
        values: vec![0.0; input.values],
    };
    let (times, energies) = (&mut load.times, &mut load.energies);
    fill(input.seed, input.hop, times, energies, &mut load.values);
    load
}

/// What a seed draws first, and the values of that, exactly.
pub struct Figures {
    pub seed: u64,
    pub draws: &'static [u64],
    pub values: &'static [f64],
}

/// Worked out apart from the lines above. The second seed is that of the paper.
pub const FIGURES: [Figures; 2] = [
    Figures {
        seed: 1,
        draws: &[
            1_082_269_761,
            1_152_992_998_833_853_505,
            11_177_516_664_432_764_457,
            17_678_023_832_001_937_445,
        ],
        values: &[0.253_906_25, 4.253_906_25, 6.160_156_25, 0.144_531_25],
    },
    Figures {
        seed: 88_172_645_463_325_252,
        draws: &[
            8_748_534_153_485_358_512,
            3_040_900_993_826_735_515,
            3_453_997_556_048_239_312,
        ],
        values: &[5.687_5, 5.605_468_75, 10.812_5],
    },
];

#[cfg(test)]
mod tests {
    use super::*;

    #[test]
    fn the_figures_are_drawn() {
        for figures in FIGURES {
            let draws: Vec<u64> = Draws::of(figures.seed).take(figures.draws.len()).collect();
            assert_eq!(draws, figures.draws);
            let values: Vec<f64> = draws.into_iter().map(|n| value_of(n).into()).collect();
            assert_eq!(values, figures.values);
        }
    }

    #[test]
    fn values_are_256ths_below_16() {
        let value = |draw| f64::from(value_of(draw));
        assert_eq!(value(0), 0.0);
        assert_eq!(value(1), 0.003_906_25);
        assert_eq!(value(4_095), 15.996_093_75);
        assert_eq!(value(4_096), 0.0);
        assert_eq!(value(u64::MAX), 15.996_093_75);
    }

    #[test]
    fn a_load_goes_by_the_rules() {
        let load = load(&Input::fitting(1, 23.22, 2, 2));
        assert_eq!(load.times, [0.0, 23.22]);
        assert_eq!(load.energies, [-20.0; 2]);
        let values: Vec<f64> = load.values.into_iter().map(f64::from).collect();
        assert_eq!(values, FIGURES[0].values);
    }

    #[test]
    fn a_time_is_one_product() {
        let load = load(&Input::fitting(1, 23.22, 0, 15));
        let sum = (0..14).fold(0.0, |sum, _| sum + 23.22);
        assert_eq!(load.times[14], 14.0 * 23.22);
        assert_eq!(load.times[14], f64::next_down(sum));
    }
}
