//! Inputs by number: any thread can make any of them, and every run makes the same.

pub struct Family<A> {
    pub count: u64,
    pub at: Box<dyn Fn(u64) -> A + Send + Sync>,
}

impl<A: Copy + Send + Sync + 'static> Family<A> {
    pub fn new(count: u64, at: impl Fn(u64) -> A + Send + Sync + 'static) -> Self {
        Self {
            count,
            at: Box::new(at),
        }
    }

    pub fn list(values: Vec<A>) -> Self {
        Self::new(values.len() as u64, move |n| values[n as usize])
    }
}

/// Number n of the splitmix64 sequence.
pub fn pattern(n: u64) -> u64 {
    let mut z = n.wrapping_add(1).wrapping_mul(0x9e37_79b9_7f4a_7c15);
    z = (z ^ (z >> 30)).wrapping_mul(0xbf58_476d_1ce4_e5b9);
    z = (z ^ (z >> 27)).wrapping_mul(0x94d0_49bb_1331_11eb);
    z ^ (z >> 31)
}

/// A pattern that has nothing to do with `pattern(n)`.
pub fn second_pattern(n: u64) -> u64 {
    pattern(!n)
}
