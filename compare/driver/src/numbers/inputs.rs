//! The inputs that each function is compared on: the chosen ones, whole families around its limits,
//! and patterns.

use super::edges;
use super::roots::near_middle;
use super::ties::{with_rest, RESTS};
use crate::compare::Effort;
use crate::family::{pattern, second_pattern, Family};
use sonalign::replaced::{LN_OF_10, LOG2_OF_E, ROOT_OF_2};
use std::ops::RangeInclusive;

pub const DIGITS: u64 = (1 << 52) - 1;
const SIGN: u64 = 1 << 63;
const INFINITE_F32: u32 = 0x7f80_0000;

pub fn any(effort: Effort) -> Vec<Family<f64>> {
    let edges = [edges::whole(), edges::narrow(), edges::root()].concat();
    let count = effort.pick(2_000_000, 30_000_000);
    vec![Family::list(edges), every_exponent(), patterns(count)]
}

/// Every f32, or one in 1009.
pub fn any_f32(effort: Effort) -> Vec<Family<f32>> {
    let stride = effort.pick(1009, 1);
    vec![Family::list(edges::ln_1p()), strided(u32::MAX, stride)]
}

pub fn whole(effort: Effort) -> Vec<Family<f64>> {
    let count = effort.pick(2_000_000, 30_000_000);
    vec![
        Family::list(edges::whole()),
        every_exponent(),
        halves(count),
        spread(count, 1018..=1082),
        patterns(count),
    ]
}

pub fn narrow(effort: Effort) -> Vec<Family<f64>> {
    let count = effort.pick(2_000_000, 30_000_000);
    vec![
        Family::list(edges::narrow()),
        every_exponent(),
        Family::new(RESTS, with_rest),
        ties(count),
        // From far below the least f32 to beyond the largest.
        spread(count, 866..=1155),
        patterns(count),
    ]
}

pub fn root(effort: Effort) -> Vec<Family<f64>> {
    let count = effort.pick(1_000_000, 20_000_000);
    vec![
        Family::list(edges::root()),
        every_exponent(),
        squares(count),
        middles(count),
        spread(count, 983..=1063),
        patterns(count),
    ]
}

pub fn exp(effort: Effort) -> Vec<Family<f64>> {
    let count = effort.pick(1_000_000, 15_000_000);
    vec![
        Family::list(edges::exp()),
        every_exponent(),
        switches(effort.pick(8, 512), 1.0 / LOG2_OF_E),
        near(effort.pick(100, 10_000), vec![690.0, -690.0]),
        uniform(count, 700.0),
        spread(count, 963..=1033),
        patterns(count),
    ]
}

pub fn ten_to(effort: Effort) -> Vec<Family<f64>> {
    let count = effort.pick(1_000_000, 15_000_000);
    let limit = 690.0 / LN_OF_10;
    vec![
        Family::list(edges::ten_to()),
        every_exponent(),
        switches(effort.pick(8, 512), 1.0 / LOG2_OF_E / LN_OF_10),
        near(effort.pick(100, 10_000), vec![limit, -limit]),
        uniform(count, 305.0),
        spread(count, 963..=1032),
        patterns(count),
    ]
}

pub fn ln(effort: Effort) -> Vec<Family<f64>> {
    let count = effort.pick(1_000_000, 15_000_000);
    let powers = (-1022..=1023).map(|e| 2.0_f64.powi(e));
    let middles = powers.clone().map(|power| ROOT_OF_2 * power);
    let reach = effort.pick(8, 512);
    vec![
        Family::list(edges::log10()),
        every_exponent(),
        near(reach, powers.collect()),
        near(reach, middles.collect()),
        near_one(count),
        positive(count),
        patterns(count / 10),
    ]
}

/// Every f32 from 0 to infinity, or one in 31; and negative ones and NaNs.
pub fn ln_1p(effort: Effort) -> Vec<Family<f32>> {
    let stride = effort.pick(31, 1);
    let count = effort.pick(1_000_000, 20_000_000);
    vec![
        Family::list(edges::ln_1p()),
        strided(INFINITE_F32, stride),
        Family::new(count, |n| f32::from_bits(pattern(n) as u32 | 0x8000_0000)),
        Family::new(1000, |n| f32::from_bits(pattern(n) as u32 | INFINITE_F32)),
    ]
}

/// Where rows of f32 begin, by their patterns: so that they hold every f32 that is not negative, or
/// one row in some; and rows of negative ones, of infinities and NaNs.
pub fn ln_1p_rows(effort: Effort, row: u32) -> Vec<Family<f32>> {
    let stride = effort.pick(100_003, u64::from(row));
    let count = effort.pick(1_000, 100_000);
    vec![
        strided(INFINITE_F32, stride),
        Family::new(count, |n| f32::from_bits(pattern(n) as u32 | 0x8000_0000)),
    ]
}

/// A finite f32, not negative.
pub fn finite_f32(n: u64) -> f32 {
    f32::from_bits(pattern(n) as u32 % INFINITE_F32)
}

/// Any f64.
fn patterns(count: u64) -> Family<f64> {
    Family::new(count, |n| f64::from_bits(pattern(n)))
}

/// Any positive normal f64.
fn positive(count: u64) -> Family<f64> {
    Family::new(count, |n| of_field(n, &(1..=2046)).abs())
}

/// Of either sign, with the exponent's field in the given range.
fn spread(count: u64, fields: RangeInclusive<u64>) -> Family<f64> {
    Family::new(count, move |n| of_field(n, &fields))
}

pub fn of_field(n: u64, fields: &RangeInclusive<u64>) -> f64 {
    let span = fields.end() - fields.start() + 1;
    let field = fields.start() + second_pattern(n) % span;
    f64::from_bits(pattern(n) & (SIGN | DIGITS) | field << 52)
}

/// Every exponent with both signs and the digits where carries begin and end, those of f32
/// included.
fn every_exponent() -> Family<f64> {
    let mut digits = vec![0, DIGITS];
    for bit in [0, 1, 27, 28, 29, 30, 50, 51] {
        let one = 1 << bit;
        digits.extend([one, one - 1, one + 1, DIGITS - one]);
    }
    let each = digits.len() as u64;
    Family::new(4096 * each, move |n| {
        f64::from_bits(digits[(n % each) as usize] | (n / each) << 52)
    })
}

/// A whole number and a half, of any size that has one, or a neighbour of it.
fn halves(count: u64) -> Family<f64> {
    Family::new(count, |n| {
        let whole = pattern(n) >> (12 + second_pattern(n) % 52);
        either_side(n, whole as f64 + 0.5)
    })
}

/// The middle between two f32, or a neighbour of it; the subnormals and the end of the range are
/// met often.
fn ties(count: u64) -> Family<f64> {
    Family::new(count, |n| {
        let from_end = ((pattern(n) >> 32) as u32 >> (second_pattern(n) % 32)) % INFINITE_F32;
        let below = if pattern(n).is_multiple_of(2) {
            from_end
        } else {
            INFINITE_F32 - 1 - from_end
        };
        let above = match below + 1 {
            INFINITE_F32 => 2.0_f64.powi(128),
            bits => f64::from(f32::from_bits(bits)),
        };
        let middle = (f64::from(f32::from_bits(below)) + above) / 2.0;
        either_side(n, middle)
    })
}

/// x or the f64 on either side of it, with either sign.
fn either_side(n: u64, x: f64) -> f64 {
    let x = match n % 3 {
        0 => x.next_down(),
        1 => x,
        _ => x.next_up(),
    };
    if second_pattern(n) >> 63 == 0 {
        x
    } else {
        -x
    }
}

/// The square of a number of at most 26 digits, which is exact, or one of its neighbours.
fn squares(count: u64) -> Family<f64> {
    Family::new(count, |n| {
        let side = (pattern(n) >> (38 + second_pattern(n) % 20)) as f64;
        let scale = 2.0_f64.powi((pattern(n) % 400) as i32 - 200);
        either_side(n, side * scale * (side * scale)).abs()
    })
}

/// Numbers whose roots lie next to the middle between two f64, from 2^-896 to the largest.
fn middles(count: u64) -> Family<f64> {
    Family::new(count, move |n| {
        let half_delta = (n / 2) as i64 - (count / 4) as i64;
        let scale = 4.0_f64.powi((pattern(n) % 960) as i32 - 500);
        near_middle(half_delta, 52 + (n % 2) as u32) * scale
    })
}

/// From -limit to limit.
fn uniform(count: u64, limit: f64) -> Family<f64> {
    Family::new(count, move |n| between(n, limit))
}

pub fn between(n: u64, limit: f64) -> f64 {
    let part = (pattern(n) >> 11) as f64 / 2.0_f64.powi(53);
    (2.0 * part - 1.0) * limit
}

/// Around every x where E's k changes: the halves that lie within 1000, times `unit`.
fn switches(reach: u64, unit: f64) -> Family<f64> {
    let halves = (-1000..1000).map(|k| (f64::from(k) + 0.5) * unit);
    near(reach, halves.collect())
}

/// Each of the numbers and the f64 up to `reach` units in the last place from it.
fn near(reach: u64, middles: Vec<f64>) -> Family<f64> {
    let each = 2 * reach + 1;
    Family::new(each * middles.len() as u64, move |n| {
        let bits = middles[(n / each) as usize].to_bits();
        f64::from_bits(bits.wrapping_add(n % each).wrapping_sub(reach))
    })
}

/// 1 with a change of any size.
fn near_one(count: u64) -> Family<f64> {
    Family::new(count, |n| 1.0 + of_field(n, &(970..=1021)))
}

/// Every stride-th f32 pattern from 0 to `last`.
fn strided(last: u32, stride: u64) -> Family<f32> {
    let count = u64::from(last) / stride + 1;
    Family::new(count, move |n| f32::from_bits((n * stride) as u32))
}
