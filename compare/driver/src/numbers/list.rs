//! The fixed list that a program of the port replays without any Rust.

use super::edges;
use crate::recorded;
use sonalign::replaced;
use std::fmt::Write;

/// Whether the list that stands is the Rust's.
pub fn check() -> bool {
    recorded::stands("list of numbers", "crates/numbers_replay/stdin", &lines())
}

/// The last line is wrong.
pub fn lines() -> String {
    let mut text = String::new();
    let mut add = |name: &str, inputs: Vec<f64>, theirs: fn(f64) -> f64| {
        for input in inputs {
            push_line(&mut text, name, input, theirs(input));
        }
    };
    add("round", edges::whole(), f64::round);
    add("floor", edges::whole(), f64::floor);
    add("ceil", edges::whole(), f64::ceil);
    add("narrow", edges::narrow(), |x| f64::from(x as f32));
    add("root", edges::root(), f64::sqrt);
    add("exp", edges::exp(), replaced::exp);
    add("ten_to", edges::ten_to(), replaced::ten_to);
    add("ln", edges::ln(), replaced::ln);
    let wide = edges::ln_1p().into_iter().map(f64::from).collect();
    add("ln_1p", wide, |w| f64::from(replaced::ln_1p(w as f32)));
    add("log10", edges::log10(), replaced::log10);
    recorded::with_wrong_line(text)
}

/// Name, input and answer, at fixed places.
pub fn push_line(text: &mut String, name: &str, input: f64, answer: f64) {
    let (input, answer) = (one_nan(input), one_nan(answer));
    // Writing to a string cannot fail.
    let _ = writeln!(text, "{name:<6} {input:016x} {answer:016x}");
}

/// The bits, the same for every NaN.
fn one_nan(x: f64) -> u64 {
    if x.is_nan() {
        0x7ff8_0000_0000_0000
    } else {
        x.to_bits()
    }
}
