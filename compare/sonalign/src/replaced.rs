//! The functions that stand in for `exp`, `powf` of 10, `log10` and `ln_1p`, written from document
//! 01, "Numbers": each operation rounded once in f64, in the order of its words. Outside the domain
//! that it gives, they answer NaN.
//!
//! They are inlined into the loops of matcher.rs and engine.rs, as a build in one codegen unit has
//! them; see "The comparison build" in compare/README.md.

// The document gives decimals and bit patterns, and these are held to it, not to the library's
// constants.
#![allow(clippy::approx_constant)]

pub const LOG2_OF_E: f64 = 1.4426950408889634;
pub const LN_OF_10: f64 = 2.302585092994046;
pub const ROOT_OF_2: f64 = 1.4142135623730951;

/// ln 2 is `HI` + `LO`; `HI` ends in zeros, so that its product with an exponent is exact.
const HI: f64 = f64::from_bits(0x3FE6_2E42_FEE0_0000);
const LO: f64 = f64::from_bits(0x3DEA_39EF_3579_3C76);

/// E(x).
#[inline]
pub fn exp(x: f64) -> f64 {
    if x < -690.0 {
        return 0.0;
    }
    if x > 690.0 {
        return f64::INFINITY;
    }
    let k = (x * LOG2_OF_E).round();
    let r = (x - k * HI) - k * LO;
    let mut p = 1.0;
    // Half-open: the compiler unrolls this, and not 1..=13.
    for n in (1..14).rev() {
        p = 1.0 + (r * p) / f64::from(n);
    }
    p * two_to(k)
}

/// 10^y.
#[inline]
pub fn ten_to(y: f64) -> f64 {
    exp(y * LN_OF_10)
}

/// L(v).
#[inline]
pub fn ln(v: f64) -> f64 {
    if v == f64::INFINITY {
        return v;
    }
    if !v.is_normal() || v < 0.0 {
        return f64::NAN;
    }
    let bits = v.to_bits();
    let mut m = f64::from_bits(bits % (1 << 52) + 1.0_f64.to_bits());
    let mut e = (bits >> 52) as f64 - 1023.0;
    if m > ROOT_OF_2 {
        m /= 2.0;
        e += 1.0;
    }
    e * HI + (e * LO + twice((m - 1.0) / (m + 1.0)))
}

#[inline]
pub fn ln_1p(w: f32) -> f32 {
    let w = f64::from(w);
    let answer = if w <= 0.375 {
        twice(w / (2.0 + w))
    } else {
        ln(1.0 + w)
    };
    answer as f32
}

#[inline]
pub fn log10(v: f64) -> f64 {
    ln(v) / LN_OF_10
}

/// 2×(s×q), the logarithm of (1 + s) / (1 - s).
#[inline]
fn twice(s: f64) -> f64 {
    let z = s * s;
    let mut q = 0.0;
    for n in (1..=23).rev().step_by(2) {
        q = q * z + 1.0 / f64::from(n);
    }
    2.0 * (s * q)
}

/// 2^k for a whole k from -1022 to 1023.
#[inline]
fn two_to(k: f64) -> f64 {
    if (-1022.0..=1023.0).contains(&k) {
        f64::from_bits(((k + 1023.0) as u64) << 52)
    } else {
        f64::NAN
    }
}

#[cfg(test)]
mod tests {
    use super::*;

    #[test]
    fn exp_at_its_limits() {
        assert_eq!(exp(0.0), 1.0);
        assert_eq!(exp(-0.0), 1.0);
        assert!(exp(690.0).is_finite());
        assert_eq!(exp(690.0_f64.next_up()), f64::INFINITY);
        assert!(exp(-690.0) > 0.0);
        assert_eq!(exp((-690.0_f64).next_down()), 0.0);
        assert_eq!(exp(f64::NEG_INFINITY), 0.0);
        assert!(exp(f64::NAN).is_nan());
    }

    #[test]
    fn ln_at_its_limits() {
        assert_eq!(ln(1.0).to_bits(), 0);
        assert_eq!(ln(f64::INFINITY), f64::INFINITY);
        assert!(ln(f64::MIN_POSITIVE).is_finite());
        for v in [0.0, -0.0, -1.0, f64::MIN_POSITIVE.next_down(), f64::NAN] {
            assert!(ln(v).is_nan());
        }
    }

    #[test]
    fn ln_1p_keeps_the_sign_of_zero() {
        assert_eq!(ln_1p(0.0).to_bits(), 0);
        assert_eq!(ln_1p(-0.0).to_bits(), (-0.0_f32).to_bits());
        assert_eq!(ln_1p(f32::INFINITY), f32::INFINITY);
    }

    #[test]
    fn powers_of_two_have_a_range() {
        assert_eq!(two_to(-1022.0), f64::MIN_POSITIVE);
        assert_eq!(two_to(1023.0), 2.0_f64.powi(1023));
        assert!(two_to(-1023.0).is_nan());
        assert!(two_to(1024.0).is_nan());
    }

    #[test]
    fn all_are_near_the_functions_they_replace() {
        for x in [-2.5, -0.3, 0.001, 0.7, 3.0, 20.0] {
            assert!((exp(x) / f64::exp(x) - 1.0).abs() < 1e-15);
            assert!((ten_to(x) / 10.0_f64.powf(x) - 1.0).abs() < 1e-13);
        }
        for v in [1e-9, 0.3, 1.1, 1.5, 42.0, 1e9_f64] {
            assert!((ln(v) / v.ln() - 1.0).abs() < 1e-15);
            assert!((log10(v) / v.log10() - 1.0).abs() < 1e-15);
            assert!((f64::from(ln_1p(v as f32)) / v.ln_1p() - 1.0).abs() < 1e-7);
        }
    }
}
