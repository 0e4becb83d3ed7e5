//! The number functions of the port, as crates/compare_exports hands them out.

macro_rules! exported {
    ($($name:ident = $symbol:ident($from:ty) -> $to:ty;)*) => {
        // They are proved to be defined for every number: hence `safe`.
        unsafe extern "C" {
            $(safe fn $symbol(x: $from) -> $to;)*
        }
        $(
            #[inline]
            pub fn $name(x: $from) -> $to {
                $symbol(x)
            }
        )*
    };
}

exported! {
    is_finite = numbers_is_finite(f64) -> bool;
    is_finite_f32 = numbers_is_finite_f32(f32) -> bool;
    widen = numbers_widen(f32) -> f64;
    narrow = numbers_narrow(f64) -> f32;
    round = numbers_round(f64) -> f64;
    floor = numbers_floor(f64) -> f64;
    ceil = numbers_ceil(f64) -> f64;
    root = numbers_root(f64) -> f64;
    exp = numbers_exp(f64) -> f64;
    ten_to = numbers_ten_to(f64) -> f64;
    ln = numbers_ln(f64) -> f64;
    ln_1p = numbers_ln_1p(f32) -> f32;
    log10 = numbers_log10(f64) -> f64;
}

// Proved to read and write within the slices given.
unsafe extern "C" {
    fn numbers_root_row(roots: *mut f64, roots_len: usize, x: *const f64, x_len: usize) -> bool;
    fn numbers_ln_1p_row(logs: *mut f32, logs_len: usize, w: *const f32, w_len: usize) -> bool;
    fn numbers_narrow_row(out: *mut f32, out_len: usize, x: *const f64, x_len: usize) -> bool;
}

/// Writes the roots of x, and says whether it has: the lengths must be equal.
pub fn root_row(roots: &mut [f64], x: &[f64]) -> bool {
    // SAFETY: the pointers and lengths are of slices.
    unsafe { numbers_root_row(roots.as_mut_ptr(), roots.len(), x.as_ptr(), x.len()) }
}

/// Writes ln(1 + w) of each w, and says whether it has: the lengths must be equal.
pub fn ln_1p_row(logs: &mut [f32], w: &[f32]) -> bool {
    // SAFETY: the pointers and lengths are of slices.
    unsafe { numbers_ln_1p_row(logs.as_mut_ptr(), logs.len(), w.as_ptr(), w.len()) }
}

/// Writes the f32 nearest to each x, and says whether it has: the lengths must be equal.
pub fn narrow_row(out: &mut [f32], x: &[f64]) -> bool {
    // SAFETY: the pointers and lengths are of slices.
    unsafe { numbers_narrow_row(out.as_mut_ptr(), out.len(), x.as_ptr(), x.len()) }
}
