//! What a load shows, so that a mistake of a kind would be seen in it.

use super::generator::{value_of, Draws};
use super::reading::Input;
use crate::sessions::session::Window;
use std::iter::once;

/// A kind by its name, and whether the load of an input is of it.
pub type Kind = (&'static str, fn(&Input, &Window) -> bool);

pub const KINDS: [Kind; 8] = [
    ("loads without frames", |input, _| input.times == 0),
    ("loads without bands", |input, _| input.bands == 0),
    ("loads of the largest size", |input, _| input.is_largest()),
    (
        "loads with a time that a running sum misses by its last bit",
        |input, load| sum_misses(input.hop, &load.times),
    ),
    (
        "loads that would differ if the seed were drawn first",
        |input, load| seed_first_differs(input.seed, &load.values),
    ),
    (
        "loads that would differ if drawn frame after frame",
        |_, load| by_frame_differs(load),
    ),
    ("loads with a value of 0", |_, load| {
        load.values.contains(&0.0)
    }),
    ("loads with a value of 15.99609375", |_, load| {
        load.values.contains(&(4_095.0 / 256.0))
    }),
];

fn sum_misses(hop: f64, times: &[f64]) -> bool {
    let mut sum = 0.0_f64;
    times.iter().any(|time| {
        let apart = time.to_bits().abs_diff(sum.to_bits());
        sum += hop;
        apart == 1
    })
}

fn seed_first_differs(seed: u64, values: &[f32]) -> bool {
    let draws = once(seed).chain(Draws::of(seed));
    let mut pairs = values.iter().zip(draws);
    pairs.any(|(&value, draw)| value != value_of(draw))
}

fn by_frame_differs(load: &Window) -> bool {
    let (bands, frames) = (load.bands, load.times.len());
    let by_band = |band: usize, frame: usize| load.values[band * frames + frame];
    let by_frame = |band: usize, frame: usize| load.values[frame * bands + band];
    let differs = |band| (0..frames).any(|frame| by_band(band, frame) != by_frame(band, frame));
    (0..bands).any(differs)
}

#[cfg(test)]
mod tests {
    use super::super::generator::load;
    use super::*;

    fn shown(input: Input) -> [bool; KINDS.len()] {
        KINDS.map(|(_, shows)| shows(&input, &load(&input)))
    }

    #[test]
    fn a_sum_misses_at_frame_14() {
        let times = load(&Input::fitting(1, 23.22, 0, 15)).times;
        assert!(sum_misses(23.22, &times));
        assert!(!sum_misses(23.22, &times[..14]));
        let whole = load(&Input::fitting(1, 20.0, 0, 1_000)).times;
        assert!(!sum_misses(20.0, &whole));
    }

    #[test]
    fn mistakes_show_in_two_by_two() {
        let [_, _, _, sum, seed_first, by_frame, _, _] = shown(Input::fitting(1, 23.22, 2, 2));
        assert_eq!([sum, seed_first, by_frame], [false, true, true]);
    }

    #[test]
    fn nothing_shows_without_values() {
        let shown = shown(Input::fitting(1, 20.0, 0, 0));
        let expected = [true, true, false, false, false, false, false, false];
        assert_eq!(shown, expected);
    }

    #[test]
    fn a_row_has_no_other_order() {
        assert!(!by_frame_differs(&load(&Input::fitting(1, 20.0, 1, 9))));
        assert!(!by_frame_differs(&load(&Input::fitting(1, 20.0, 9, 1))));
    }
}
