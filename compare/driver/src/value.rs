//! What is compared, and when two answers are the same.

pub trait Value: Copy + Send + Sync {
    fn bits(self) -> u64;
    fn of_bits(bits: u64) -> Self;
    fn is_nan(self) -> bool;
    /// Bits and value, for a report.
    fn shown(self) -> String;
    /// Those that a function may treat apart.
    fn odd() -> Vec<Self>;
}

impl Value for f64 {
    fn bits(self) -> u64 {
        self.to_bits()
    }
    fn of_bits(bits: u64) -> Self {
        f64::from_bits(bits)
    }
    fn is_nan(self) -> bool {
        f64::is_nan(self)
    }
    fn shown(self) -> String {
        format!("{:016x} ({self:?})", self.to_bits())
    }
    fn odd() -> Vec<Self> {
        let all = [0.0, 1.0, 5e-324, f64::MAX, f64::INFINITY, f64::NAN];
        all.into_iter().flat_map(|x| [x, -x]).collect()
    }
}

impl Value for f32 {
    fn bits(self) -> u64 {
        u64::from(self.to_bits())
    }
    fn of_bits(bits: u64) -> Self {
        f32::from_bits(bits as u32)
    }
    fn is_nan(self) -> bool {
        f32::is_nan(self)
    }
    fn shown(self) -> String {
        format!("{:08x} ({self:?})", self.to_bits())
    }
    fn odd() -> Vec<Self> {
        let all = [0.0, 1.0, 1e-45, f32::MAX, f32::INFINITY, f32::NAN];
        all.into_iter().flat_map(|x| [x, -x]).collect()
    }
}

impl Value for bool {
    fn bits(self) -> u64 {
        u64::from(self)
    }
    fn of_bits(bits: u64) -> Self {
        bits != 0
    }
    fn is_nan(self) -> bool {
        false
    }
    fn shown(self) -> String {
        self.to_string()
    }
    fn odd() -> Vec<Self> {
        vec![false, true]
    }
}

/// Bit for bit, so that the two zeros differ. IEEE 754 leaves a NaN's payload open, so NaNs are all
/// the same.
pub fn same<V: Value>(left: V, right: V) -> bool {
    left.bits() == right.bits() || (left.is_nan() && right.is_nan())
}
