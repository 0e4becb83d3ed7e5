//! The functions of a row: each number among others, and whole rows.

use super::edges;
use super::inputs::{finite_f32, of_field};
use super::ours;
use crate::compare::Effort;
use crate::value::{same, Value};
use sonalign::replaced;
use std::array::from_fn;

/// √x, worked out in a row with x at four places and three numbers that any row serves; and a
/// number that is no root of x where the row does not have its roots everywhere.
pub fn root_in_row(x: f64) -> f64 {
    let row = [x, 2.0, x, 3.0, 5.0, x, x];
    of_first(row, ours::root_row, f64::sqrt).unwrap_or(NO_ROOT)
}

/// Below zero, and no NaN: no root is.
const NO_ROOT: f64 = -1.0;

/// The f32 nearest to x, as `root_in_row`. The row is so long that vectors of up to 16 numbers hold
/// three of the places, and the rest behind them holds the last. Zeros are among the others.
pub fn narrow_in_row(x: f64) -> f32 {
    let row: [f64; 19] = from_fn(|i| match i {
        0 | 5 | 11 | 18 => x,
        _ => (i % 6) as f64 / 3.0,
    });
    let wrong = if x.is_nan() { 0.0 } else { f32::NAN };
    of_first(row, ours::narrow_row, |x| x as f32).unwrap_or(wrong)
}

/// What a row has for its first number, if it has that wherever the number stands, and for the
/// others what they have alone.
fn of_first<B: Value, const N: usize>(
    row: [f64; N],
    of_row: fn(&mut [B], &[f64]) -> bool,
    of_one: impl Fn(f64) -> B,
) -> Option<B> {
    let mut filled = [B::of_bits(7); N];
    assert!(of_row(&mut filled, &row), "the lengths are equal");
    let right = row.iter().zip(&filled).all(|(&x, &y)| {
        let expected = if same(x, row[0]) {
            filled[0]
        } else {
            of_one(x)
        };
        same(y, expected)
    });
    right.then_some(filled[0])
}

/// How many numbers stand in a row of `logs_from`: two blocks and a part of one.
pub const ROW: u32 = 256;

/// Whether a row of the f32 from `first` on, by their patterns, has the logarithm of each.
pub fn logs_from(first: f32) -> bool {
    let from = first.to_bits();
    let row: Vec<f32> = (0..ROW)
        .map(|i| f32::from_bits(from.wrapping_add(i)))
        .collect();
    is_same(&row, ours::ln_1p_row, replaced::ln_1p)
}

pub fn check(effort: Effort) -> bool {
    let (logs, log) = (ours::ln_1p_row, replaced::ln_1p);
    let (narrowed, narrow) = (ours::narrow_row, |x| x as f32);
    let root = |n| of_field(n, &(100..=1_900)).abs();
    let odd = f64::odd();
    rows("root_row", effort, ours::root_row, f64::sqrt, root, &odd)
        & rows("ln_1p_row", effort, logs, log, finite_f32, &f32::odd())
        & rows(
            "narrow_row",
            effort,
            narrowed,
            narrow,
            plain,
            &odd_to_narrow(),
        )
}

/// Numbers that vector code narrows: those whose f32 is normal and has no sign, and +0, as silence
/// brings.
fn plain(n: u64) -> f64 {
    if n.is_multiple_of(11) {
        0.0
    } else {
        of_field(n, &(897..=1150)).abs()
    }
}

/// What goes one by one, and its neighbours: a sign, a subnormal or infinite result, NaN.
fn odd_to_narrow() -> Vec<f64> {
    let end = 2.0_f64.powi(128);
    let ends = [end.next_down(), end, end.next_up(), -end];
    [f64::odd(), edges::narrow(), ends.to_vec()].concat()
}

/// Lengths up to more than two blocks.
const LENGTHS: u64 = 260;

/// Rows of every length, of numbers that the passes serve; in every third one number, the first, the
/// last or any, is exchanged for one that some do not. Also a row of another length than the one to
/// be filled.
fn rows<A: Value, B: Value>(
    name: &str,
    effort: Effort,
    of_row: fn(&mut [B], &[A]) -> bool,
    of_one: fn(A) -> B,
    served: fn(u64) -> A,
    odd: &[A],
) -> bool {
    let count = LENGTHS * effort.pick(8, 400);
    let row = |n: u64| {
        let length = n % LENGTHS;
        let mut x: Vec<A> = (0..length).map(|i| served(n * LENGTHS + i)).collect();
        if n.is_multiple_of(3) && length > 0 {
            let place = [0, length - 1, n / 9 % length][n as usize / 3 % 3];
            x[place as usize] = odd[n as usize / 7 % odd.len()];
        }
        x
    };
    let (mut compared, mut different) = (0, 0);
    for n in 0..count {
        compared += 1;
        different += u64::from(!is_same(&row(n), of_row, of_one));
    }
    let refused = refuses(of_row, served(0));
    println!("{name:<15} {compared:>10} rows, {different} differences");
    if !refused {
        println!("{name} takes a row of another length, or writes to it");
    }
    compared > 0 && different == 0 && refused
}

fn is_same<A: Value, B: Value>(
    x: &[A],
    of_row: fn(&mut [B], &[A]) -> bool,
    of_one: fn(A) -> B,
) -> bool {
    let mut filled = vec![B::of_bits(7); x.len()];
    of_row(&mut filled, x) && x.iter().zip(&filled).all(|(&x, &y)| same(y, of_one(x)))
}

fn refuses<A: Value, B: Value>(of_row: fn(&mut [B], &[A]) -> bool, x: A) -> bool {
    let mut kept = [B::of_bits(7); 3];
    !of_row(&mut kept, &[x; 4]) && kept.iter().all(|y| y.bits() == 7)
}
