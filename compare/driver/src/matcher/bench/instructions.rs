//! What SSE2's packed instructions take where none waits for another: the least for any code of the
//! baseline that does the same operations.

use std::arch::x86_64::{__m128d, _mm_add_ps, _mm_div_pd, _mm_mul_ps};
use std::arch::x86_64::{_mm_set1_pd, _mm_set1_ps, _mm_set_pd, _mm_sqrt_pd};
use std::fmt;
use std::hint::black_box;
use std::time::Instant;

const STEPS: usize = 1 << 16;
/// Vectors of two f64, few enough to stay in the nearest cache.
const VECTORS: usize = 1 << 9;
const REPEATS: usize = 1 << 6;

/// Nanoseconds of an instruction on one vector: four f32, or two f64.
pub struct Instructions {
    multiplication: f64,
    addition: f64,
    /// A multiplication and an addition in one loop.
    pub pair: f64,
    root: f64,
    division: f64,
    /// A root and a division by it.
    pub quotient: f64,
}

impl Instructions {
    /// Each the least of so many rounds.
    pub fn measured(rounds: usize) -> Self {
        // SAFETY: every x86-64 has SSE2.
        unsafe { Self::of_sse2(rounds) }
    }

    #[target_feature(enable = "sse2")]
    fn of_sse2(rounds: usize) -> Self {
        let least =
            |act: &dyn Fn() -> f64| (0..rounds).map(|_| act()).fold(f64::INFINITY, f64::min);
        Self {
            multiplication: least(&|| chains::<14, 0>()),
            addition: least(&|| chains::<0, 14>()),
            pair: least(&|| chains::<7, 7>()),
            root: least(&|| each(|_, y| _mm_sqrt_pd(y))),
            division: least(&|| each(|x, y| _mm_div_pd(x, y))),
            quotient: least(&|| each(|x, y| _mm_div_pd(x, _mm_sqrt_pd(y)))),
        }
    }
}

impl fmt::Display for Instructions {
    fn fmt(&self, f: &mut fmt::Formatter) -> fmt::Result {
        let Self {
            multiplication,
            addition,
            pair,
            root,
            division,
            quotient,
        } = self;
        write!(
            f,
            "Measured, in ns: mulps {multiplication:.3}, addps {addition:.3}, one of each \
             {pair:.3}; sqrtpd {root:.2}, divpd {division:.2}, one of each {quotient:.2}."
        )
    }
}

/// Chains of products beside chains of sums: with the two constants they fill the 16 registers, and
/// there are enough of them for a step to find the one before it done.
#[target_feature(enable = "sse2")]
fn chains<const PRODUCTS: usize, const SUMS: usize>() -> f64 {
    let [one, none] = black_box([_mm_set1_ps(1.0), _mm_set1_ps(0.0)]);
    let mut products = black_box([one; PRODUCTS]);
    let mut sums = black_box([none; SUMS]);
    let begun = Instant::now();
    for _ in 0..STEPS {
        for product in &mut products {
            *product = _mm_mul_ps(*product, one);
        }
        for sum in &mut sums {
            *sum = _mm_add_ps(*sum, none);
        }
    }
    black_box((products, sums));
    begun.elapsed().as_nanos() as f64 / (STEPS * PRODUCTS.max(SUMS)) as f64
}

/// Operands of all sizes, since a root or a division of simple ones may take less.
#[target_feature(enable = "sse2")]
fn each(act: impl Fn(__m128d, __m128d) -> __m128d) -> f64 {
    let number = |n: usize| 1.0 + (n as f64 * 0.618_033_988_749).fract() * 1e3;
    let operand = |n: usize| _mm_set_pd(number(2 * n), number(2 * n + 1));
    let operands: Vec<_> = (0..VECTORS)
        .map(|n| [operand(n), operand(VECTORS + n)])
        .collect();
    let operands = black_box(operands);
    let mut answers = vec![_mm_set1_pd(0.0); VECTORS];
    let begun = Instant::now();
    for _ in 0..REPEATS {
        for (answer, &[x, y]) in answers.iter_mut().zip(&operands) {
            *answer = act(x, y);
        }
        black_box(&mut answers);
    }
    begun.elapsed().as_nanos() as f64 / (REPEATS * VECTORS) as f64
}
