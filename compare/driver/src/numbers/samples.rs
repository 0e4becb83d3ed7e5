//! Our answers for accuracy.py, which holds them to the true functions. Only inputs in document
//! 01's domain.

use super::inputs::{between, of_field};
use super::list::push_line;
use super::ours;
use crate::family::pattern;
use sonalign::replaced::LN_OF_10;

const COUNT: u64 = 100_000;

pub fn lines() -> String {
    let mut text = String::new();
    let mut add = |name: &str, input: fn(u64) -> f64, ours: fn(f64) -> f64| {
        for x in (0..COUNT).map(input) {
            push_line(&mut text, name, x, ours(x));
        }
    };
    add("exp", |n| power(n, 690.0), ours::exp);
    let limit = |n| power(n, 690.0 / LN_OF_10);
    add("ten_to", limit, ours::ten_to);
    add("ln", positive, ours::ln);
    add("log10", positive, ours::log10);
    let ln_1p = |w| f64::from(ours::ln_1p(w as f32));
    add("ln_1p", non_negative, ln_1p);
    text
}

/// Evenly up to the limit, and by exponents below 32.
fn power(n: u64, limit: f64) -> f64 {
    if n.is_multiple_of(2) {
        between(n, limit)
    } else {
        of_field(n, &(970..=1027))
    }
}

/// By exponents over the whole range, over some around 1, and next to 1.
fn positive(n: u64) -> f64 {
    match n % 3 {
        0 => of_field(n, &(1..=2046)).abs(),
        1 => of_field(n, &(1018..=1028)).abs(),
        _ => 1.0 + of_field(n, &(970..=1021)),
    }
}

/// Any f32 pattern up to the largest, and those from 2^-10 to 2^10.
fn non_negative(n: u64) -> f64 {
    let bits = pattern(n) >> 32;
    let bits = if n.is_multiple_of(2) {
        bits % 0x7f80_0000
    } else {
        (117 << 23) + bits % (20 << 23)
    };
    f64::from(f32::from_bits(bits as u32))
}
