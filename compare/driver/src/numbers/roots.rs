//! Inputs for the root that a slip in the last digit gets wrong.

/// c² + c + delta, with delta = 2 × `half_delta` and a c of 53 binary digits that makes it end in
/// `zeros` zeros. With 53 of them, and mostly with 52, an f64 holds it exactly. (c + 1/2)² is
/// c² + c + 1/4, so its root lies (delta - 1/4) / 2c off the middle between two neighbours, and
/// no root lies nearer to such a middle than those of a small delta.
pub fn near_middle(half_delta: i64, zeros: u32) -> f64 {
    let delta = 2 * half_delta;
    let value = |c: u64| c.wrapping_mul(c + 1).wrapping_add(delta as u64);
    let mut c = 0;
    for bit in 1..zeros {
        // Setting this bit of c turns the same bit of the value, and none below it.
        c |= value(c) & (1 << bit);
    }
    // Turning every bit of c below `zeros` changes none of the value's.
    let turned = c ^ ((1 << zeros) - 1);
    let c = if zeros == 53 {
        c.max(turned)
    } else {
        c.min(turned) + (1 << 52)
    };
    (i128::from(c) * i128::from(c + 1) + i128::from(delta)) as f64
}
