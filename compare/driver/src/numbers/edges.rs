//! Chosen inputs of each function, its limits from both sides among them. `--list` prints them, and
//! every comparison begins with them.

use super::roots::near_middle;
use sonalign::replaced::{LN_OF_10, LOG2_OF_E, ROOT_OF_2};
use std::collections::HashSet;

/// Of round, floor and ceil.
pub fn whole() -> Vec<f64> {
    let mut list = special();
    list.extend(signed(&around(&[0.5, 1.0, 1.5, 2.5])));
    let two_to_52 = 4503599627370496.0;
    list.extend(signed(&[two_to_52 / 2.0 + 0.5, two_to_52 - 0.5, two_to_52]));
    list.extend(signed(&[two_to_52 + 1.0, 2.0 * two_to_52, f64::MAX]));
    list.extend(signed(&[f64::from_bits(1), f64::MIN_POSITIVE, 0.4, 37.6]));
    // What the matcher rounds: 250 / hop.
    list.extend([20.0, 23.22, 499.0, 501.0, 1000.0].map(|hop| 250.0 / hop));
    distinct(list)
}

pub fn narrow() -> Vec<f64> {
    let mut list = special();
    list.extend(around(&[16777217.0, 16777219.0]));
    let unit = 2.0_f64.powi(-24);
    list.extend(around(&[1.0 + unit, 1.0 + 3.0 * unit]));
    // Ties among the subnormals of f32, up to the one below its smallest normal.
    let least = f64::from(f32::from_bits(1));
    list.extend(signed(&around(&[0.5 * least])));
    list.extend(around(&[1.5 * least, 8388607.5 * least]));
    list.extend([2.5 * least, least, 8388607.0 * least]);
    list.extend(around(&[f64::from(f32::MIN_POSITIVE)]));
    // From the middle between the largest f32 and 2^128 on, the nearest is infinite.
    let threshold = f64::from_bits(0x47ef_ffff_f000_0000);
    list.extend(signed(&around(&[threshold])));
    list.extend(signed(&[f64::from(f32::MAX), f64::MAX, f64::from_bits(1)]));
    list.extend([0.1, 1.0 / 3.0, -123456.789, 1e-40, -1e-45, 1e38, -1e39]);
    distinct(list)
}

pub fn root() -> Vec<f64> {
    let mut list = special();
    list.extend([-1.0, -f64::from_bits(1), f64::MIN]);
    list.extend(around(&[1.0, 2.0, 2.25, 4.0, 94906265.0 * 94906265.0]));
    list.extend(around(&[f64::MIN_POSITIVE]));
    list.extend([f64::from_bits(1), 1e-323, 1e-310, f64::MAX]);
    list.extend([2.0_f64.powi(-1021), 2.0_f64.powi(1023)]);
    for half_delta in -3..=3 {
        list.extend([53, 52].map(|zeros| near_middle(half_delta, zeros)));
    }
    // What the matcher roots where both energies are at the floor: of 17 frames, and of 100.
    list.extend([17.0, 100.0].map(|frames| frames * 0.001 * (frames * 0.001)));
    list.extend([0.1, 0.25, 3.0, 9.0, 1234.5678, 1e-5, 1e12, 6e23]);
    distinct(list)
}

pub fn exp() -> Vec<f64> {
    let mut list = special();
    list.extend(signed(&around(&[690.0])));
    list.extend(signed(&[700.0, 745.2, f64::MAX]));
    for half in [0.5, 1.5, 100.5] {
        let first = first_reaching(half, LOG2_OF_E);
        list.extend(signed(&[first.next_down(), first]));
    }
    list.extend(signed(&[0.1, 0.5, 1.0, 2.0, 10.0, 100.0]));
    list.extend(signed(&[2.0_f64.powi(-53), 1e-9, f64::MIN_POSITIVE]));
    list.extend(signed(&[f64::from_bits(1)]));
    // What the engine takes it of: -dt / 300.
    list.extend([20.0, 90.0, 100.0, 500.0, 1500.0, 2000.0].map(|dt: f64| -dt / 300.0));
    distinct(list)
}

pub fn ten_to() -> Vec<f64> {
    let mut list = special();
    let beyond = first_reaching(690.0_f64.next_up(), LN_OF_10);
    list.extend(signed(&around(&[beyond.next_down(), beyond])));
    list.extend(signed(&[300.0, 308.0, f64::MAX]));
    for half in [0.5, 1.5, 100.5] {
        let switch = first_reaching(first_reaching(half, LOG2_OF_E), LN_OF_10);
        list.extend(signed(&[switch.next_down(), switch]));
    }
    list.extend(signed(&[0.1, 1.0, 2.0, 10.0, 299.0]));
    list.extend(signed(&[1e-9, f64::from_bits(1)]));
    // What the engine takes it of: energy / 10, the thresholds of -70 and -62 among them.
    list.extend([-70.0, -62.0, -58.3, -12.0, -3.0, 3.0].map(|energy: f64| energy / 10.0));
    distinct(list)
}

pub fn ln() -> Vec<f64> {
    let mut list = special();
    list.extend(around(&[1.0, 2.0, 0.5, f64::MIN_POSITIVE]));
    for exponent in [0, 5, -1, 1023, -1022] {
        list.extend(around(&[ROOT_OF_2 * 2.0_f64.powi(exponent)]));
    }
    list.extend([f64::from_bits(1), f64::MAX, -1.0, -f64::MIN_POSITIVE]);
    list.extend([0.1, 0.75, 1.25, 1.41, 1.42, 3.0, 10.0, 1234.5678]);
    list.extend([1e-300, 1e-7, 6.3e-7, 1e-6, 1e9, 1e300]);
    distinct(list)
}

pub fn log10() -> Vec<f64> {
    let mut list = ln();
    list.extend([1e-10, 0.01, 100.0, 1000.0, 1e15, 1e22]);
    distinct(list)
}

pub fn ln_1p() -> Vec<f32> {
    let mut list: Vec<f64> = special();
    let positive: [f64; 24] = [
        1e-40, 1e-10, 1e-5, 1e-3, 0.01, 0.0625, 0.1, 0.25, 0.5, 2.0, 3.0, 7.5, 10.0, 15.9375, 42.0,
        100.0, 1234.5678, 1e4, 1e6, 16777216.0, 1e10, 1e20, 1e30, 1e38,
    ];
    list.extend(positive);
    list.extend([-1e-40, -1e-10, -0.25, -0.5, -1.0, -1.5, -2.0, -3.0]);
    // 1 + w passes √2, 2 and 2√2.
    for edge in [0.375, 0.41421357, 1.0, 1.8284271, f32::MIN_POSITIVE] {
        list.extend([edge.next_down(), edge, edge.next_up()].map(f64::from));
    }
    let ends = [f32::from_bits(1), f32::MAX];
    list.extend(signed(&ends.map(f64::from)));
    let narrowed = distinct(list.iter().map(|&w| f64::from(w as f32)).collect());
    narrowed.iter().map(|&w| w as f32).collect()
}

fn special() -> Vec<f64> {
    vec![0.0, -0.0, f64::INFINITY, f64::NEG_INFINITY, f64::NAN]
}

fn around(list: &[f64]) -> Vec<f64> {
    let three = |&x: &f64| [x.next_down(), x, x.next_up()];
    list.iter().flat_map(three).collect()
}

fn signed(list: &[f64]) -> Vec<f64> {
    list.iter().flat_map(|&x| [x, -x]).collect()
}

/// The smallest x for which x × factor, as f64 gives it, is at least `goal`.
fn first_reaching(goal: f64, factor: f64) -> f64 {
    let mut x = goal / factor;
    while x * factor >= goal {
        x = x.next_down();
    }
    while x * factor < goal {
        x = x.next_up();
    }
    x
}

fn distinct(list: Vec<f64>) -> Vec<f64> {
    let mut seen = HashSet::new();
    let new = |x: &f64| seen.insert(x.to_bits());
    list.into_iter().filter(new).collect()
}
