//! Numbers in the words of the logic's floats: `fin s m (pos k)` is m × 2^k and `fin s m (negsuc k)`
//! is m × 2^-(k + 1), below zero where s is true; m is odd, or 0 for a zero.

pub fn wide(x: f64) -> String {
    if x.is_nan() {
        return "nan".into();
    }
    let sign = x.is_sign_negative();
    if x.is_infinite() {
        return format!("inf {sign}");
    }
    let (digits, exponent) = parts(x);
    match exponent {
        0.. => format!("fin {sign} {digits} (pos {exponent})"),
        _ => format!("fin {sign} {digits} (negsuc {})", -(exponent + 1)),
    }
}

/// An f32 is written as the f64 of the same value.
pub fn narrow(x: f32) -> String {
    wide(f64::from(x))
}

/// A finite number without its sign as m × 2^e with m odd; a zero as 0 × 2^0.
fn parts(x: f64) -> (u64, i64) {
    let bits = x.to_bits();
    let fraction = bits % (1 << 52);
    let (digits, exponent) = match (bits >> 52) % (1 << 11) {
        0 => (fraction, -1_074),
        biased => (fraction + (1 << 52), biased as i64 - 1_075),
    };
    if digits == 0 {
        return (0, 0);
    }
    let even = digits.trailing_zeros();
    (digits >> even, exponent + i64::from(even))
}

#[cfg(test)]
mod tests {
    use super::wide;

    #[test]
    fn words() {
        assert_eq!(wide(0.0), "fin false 0 (pos 0)");
        assert_eq!(wide(-0.0), "fin true 0 (pos 0)");
        assert_eq!(wide(1.5), "fin false 3 (negsuc 0)");
        assert_eq!(wide(-20.0), "fin true 5 (pos 2)");
        assert_eq!(wide(0.25), "fin false 1 (negsuc 1)");
        assert_eq!(wide(f64::NEG_INFINITY), "inf true");
        assert_eq!(wide(f64::NAN), "nan");
        assert_eq!(wide(5e-324), "fin false 1 (negsuc 1073)");
        assert_eq!(wide(f64::MAX), "fin false 9007199254740991 (pos 971)");
    }
}
