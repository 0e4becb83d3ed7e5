//! Inputs for narrow that a slip in the rounding gets wrong, or takes longer for.

use super::inputs::{of_field, DIGITS};
use crate::family::{pattern, second_pattern};
use std::ops::RangeInclusive;

/// The fields of exponents from where `narrow` rounds off 63 digits to where all is infinite.
const ROUNDED: RangeInclusive<u64> = 863..=1151;
/// How many inputs `with_rest` has: six kinds of kept digits, six rests and two signs a field.
pub const RESTS: u64 = (*ROUNDED.end() - *ROUNDED.start() + 1) * 6 * 6 * 2;

/// Rests of a half, a unit on either side of it, and both ends, below kept digits that end even and
/// odd. A normal f32 drops 29 of the 53 digits, a subnormal one more for each exponent below, and
/// none drops fewer. Kept digits that are all ones carry: into the next exponent, the smallest
/// normal, infinity. Where 52 are dropped or more, only the leading one is not free.
pub fn with_rest(n: u64) -> f64 {
    let field = ROUNDED.start() + n / (6 * 6 * 2);
    let dropped = 29 + 897_u64.saturating_sub(field);
    let half = 1 << (dropped - 1);
    let any = pattern(field);
    let kept = [0, 1, !1, !0, any & !1, any | 1][(n / 12 % 6) as usize];
    let rest = [0, 1, half - 1, half, half + 1, 2 * half - 1][(n / 2 % 6) as usize];
    f64::from_bits((kept << dropped | rest) & DIGITS | field << 52 | (n % 2) << 63)
}

/// Exponents whose f32 are normal.
pub const NORMAL: RangeInclusive<u64> = 923..=1123;
/// The rest that a normal f32 drops, and the middle of it.
const REST: u64 = (1 << 29) - 1;
const HALF: u64 = 1 << 28;

/// The middle between two normal f32.
pub fn tie(n: u64) -> f64 {
    f64::from_bits(of_field(n, &NORMAL).to_bits() & !REST | HALF)
}

/// Between two normal f32, and not in the middle.
pub fn no_tie(n: u64) -> f64 {
    f64::from_bits(of_field(n, &NORMAL).to_bits() | 1)
}

/// A tie or none, in no order that a processor could learn.
pub fn mixed(n: u64) -> f64 {
    if second_pattern(n) >> 63 == 0 {
        tie(n)
    } else {
        no_tie(n)
    }
}

#[cfg(test)]
mod tests {
    use super::{mixed, no_tie, tie, with_rest, RESTS};
    use std::collections::HashSet;

    const COUNT: u64 = 10_000;

    /// Whether another finite f32 is as near to x as the one that it becomes.
    fn is_tie(x: f64) -> bool {
        let nearest = f64::from(x as f32);
        let other = x + (x - nearest);
        other.is_finite() && other != nearest && f64::from(other as f32) == other
    }

    #[test]
    fn a_tie_is_told() {
        let least = f64::from(f32::from_bits(1));
        let ties = [16777217.0, -16777219.0, 0.5 * least, 1.5 * least];
        assert!(ties.into_iter().all(is_tie));
        let others = [0.0, 1.0, 0.1, 16777217.0_f64.next_up(), least, 1e39];
        assert!(!others.into_iter().any(is_tie));
    }

    #[test]
    fn ties_are_ties() {
        assert!((0..COUNT).map(tie).all(is_tie));
        assert!(!(0..COUNT).map(no_tie).any(is_tie));
        let ties = (0..COUNT).map(mixed).filter(|&x| is_tie(x)).count() as u64;
        assert!((COUNT * 9 / 20..COUNT * 11 / 20).contains(&ties));
    }

    /// In each exponent of which digits are kept, a half and no other rest is one.
    #[test]
    fn a_half_is_a_tie() {
        let mut kept = (874 - 863) * 72..(1150 - 863) * 72;
        assert!(kept.all(|n| is_tie(with_rest(n)) == (n / 2 % 6 == 3)));
    }

    /// Up and down, of both signs, in each exponent of which more than one digit is kept.
    #[test]
    fn rests_reach_every_tie() {
        let up = |x: f64| f64::from(x as f32).abs() > x.abs();
        let all = (0..RESTS).map(with_rest).filter(|&x| is_tie(x));
        let ties: HashSet<_> = all.map(|x| (x.to_bits() >> 52, up(x))).collect();
        for field in (875..=1149).flat_map(|field| [field, field + 2048]) {
            assert!(ties.contains(&(field, false)) && ties.contains(&(field, true)));
        }
    }

    /// From nothing to the smallest subnormal, into the smallest normal, a next exponent, infinity.
    #[test]
    fn rests_reach_the_carries() {
        let all: HashSet<u64> = (0..RESTS).map(|n| with_rest(n).to_bits()).collect();
        let least = f64::from(f32::from_bits(1));
        let below_infinite = 2.0_f64.powi(128) - 2.0_f64.powi(103);
        for x in [0.5 * least, 8388607.5 * least, 33554431.0, below_infinite] {
            for near in [x.next_down(), x, x.next_up()] {
                assert!(all.contains(&near.to_bits()) && all.contains(&(-near).to_bits()));
            }
        }
    }
}
