//! Distances of f64 without rounding: every finite one is a whole number of units of 2^-1074.

use std::cmp::Ordering;

/// Room for the largest f64 times 2^64.
const LIMBS: usize = 35;

/// A whole number of units, lowest limb first.
#[derive(Clone, Copy, Debug, PartialEq, Eq)]
pub struct Units([u64; LIMBS]);

impl Units {
    pub const ZERO: Self = Self([0; LIMBS]);

    /// |x| of a finite x.
    fn of(x: f64) -> Self {
        let bits = x.abs().to_bits();
        let (exponent, fraction) = (bits >> 52, bits % (1 << 52));
        match exponent {
            0 => Self::shifted(fraction, 0),
            _ => Self::shifted(fraction + (1 << 52), exponent as usize - 1),
        }
    }

    /// |x - y| of finite numbers.
    pub fn between(x: f64, y: f64) -> Self {
        let (x_size, y_size) = (Self::of(x), Self::of(y));
        if x.is_sign_negative() != y.is_sign_negative() {
            x_size.plus(y_size)
        } else if x_size < y_size {
            y_size.less(x_size)
        } else {
            x_size.less(y_size)
        }
    }

    /// Whether it is at most n / d.
    pub fn is_at_most(self, n: u64, d: u64) -> bool {
        self.times(d) <= Self::shifted(n, 1_074)
    }

    /// In ms, rounded: for people.
    pub fn ms(self) -> f64 {
        let limbs = self.0.iter().enumerate().rev();
        limbs
            .filter(|&(_, &limb)| limb > 0)
            .fold(0.0, |sum, (place, &limb)| {
                sum + limb as f64 * 2f64.powi(64 * place as i32 - 537) * 2f64.powi(-537)
            })
    }

    fn shifted(digits: u64, by: usize) -> Self {
        let mut limbs = [0; LIMBS];
        let wide = u128::from(digits) << (by % 64);
        limbs[by / 64] = wide as u64;
        limbs[by / 64 + 1] = (wide >> 64) as u64;
        Self(limbs)
    }

    fn plus(self, other: Self) -> Self {
        let mut carry = 0;
        Self(std::array::from_fn(|place| {
            let sum = u128::from(self.0[place]) + u128::from(other.0[place]) + carry;
            carry = sum >> 64;
            sum as u64
        }))
    }

    /// Less one that is no larger.
    fn less(self, other: Self) -> Self {
        let mut borrowed = false;
        Self(std::array::from_fn(|place| {
            let (rest, first) = self.0[place].overflowing_sub(other.0[place]);
            let (rest, second) = rest.overflowing_sub(u64::from(borrowed));
            borrowed = first || second;
            rest
        }))
    }

    fn times(self, factor: u64) -> Self {
        let mut carry = 0;
        Self(self.0.map(|limb| {
            let product = u128::from(limb) * u128::from(factor) + carry;
            carry = product >> 64;
            product as u64
        }))
    }
}

impl Ord for Units {
    fn cmp(&self, other: &Self) -> Ordering {
        self.0.iter().rev().cmp(other.0.iter().rev())
    }
}

impl PartialOrd for Units {
    fn partial_cmp(&self, other: &Self) -> Option<Ordering> {
        Some(self.cmp(other))
    }
}

#[cfg(test)]
mod tests {
    use super::Units;

    #[test]
    fn a_distance_is_exact() {
        let unit = f64::from_bits(1);
        assert_eq!(Units::between(unit, 0.0), Units::shifted(1, 0));
        assert_eq!(Units::between(unit, -unit), Units::shifted(1, 1));
        assert_eq!(Units::between(1.0, -0.0), Units::shifted(1, 1_074));
        assert_eq!(Units::between(2e12, 2e12), Units::ZERO);
        // As f64 subtracts, the units are lost.
        let close = Units::between(80.0, unit);
        assert!(close < Units::between(80.0, 0.0) && close > Units::between(80.0, 1.0));
        assert!(Units::between(80.0, -unit) > Units::between(80.0, 0.0));
        assert_eq!(80.0 + unit, 80.0);
    }

    #[test]
    fn a_bound_is_reached_and_no_more() {
        let eighty = Units::between(90.0, 10.0);
        assert!(eighty.is_at_most(80, 1) && eighty.is_at_most(80_001, 1_000));
        assert!(!eighty.is_at_most(79_999, 1_000));
        let more = Units::between(80.0, -f64::from_bits(1));
        assert!(!more.is_at_most(80, 1) && more.is_at_most((80 << 47) + 1, 1 << 47));
        // 0.001 of f64 is a little above the decimal.
        assert!(!Units::between(0.001, 0.0).is_at_most(1, 1_000));
        assert!(Units::between(0.000_999_999_999_999_999_9, 0.0).is_at_most(1, 1_000));
        assert!(!Units::between(f64::MAX, -f64::MAX).is_at_most(u64::MAX, 1));
    }

    #[test]
    fn ms_are_those_of_f64() {
        for x in [0.0, 80.0, 79.461, 1e-14, 2e12, f64::from_bits(1)] {
            assert_eq!(Units::between(x, 0.0).ms(), x);
        }
    }
}
