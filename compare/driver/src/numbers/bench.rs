//! Nanoseconds per call, ours beside the Rust's, measured in turns so that both see the same
//! machine.

use super::inputs::of_field;
use super::{ours, ties};
use crate::family::pattern;
use crate::value::Value;
use sonalign::replaced;
use std::hint::black_box;
use std::ops::RangeInclusive;
use std::time::Instant;

/// Too many for branches to be learnt by heart, few enough to stay in the cache.
const INPUTS: u64 = 1 << 14;
const REPEATS: usize = 51;
/// Rounds differ by more than the repeats in one do. So the table has the least median of each
/// side, and beside it how the throughputs' ratio lay in the rounds.
const ROUNDS: usize = 31;

const HEAD: &str = "\
| function | beside | latency, ours | Rust's | ratio | throughput, ours | Rust's | ratio | ratio in the rounds: least, median, most |
|---|---|---|---|---|---|---|---|---|
";

/// The table for docs/BENCHMARKS.md. A latency is that of a call whose input waits for the answer
/// before; a throughput is that of calls that wait for nothing. Ours are calls over the C
/// interface; Rust's may be inlined, as they are in its program.
pub fn table() -> String {
    let mut least = round();
    for _ in 1..ROUNDS {
        for (row, again) in least.iter_mut().zip(round()) {
            row.add(again);
        }
    }
    let empty = least.pop().map_or(Times::LONGEST, |row| row.ours);
    let rows: String = least.iter().map(Row::line).collect();
    let Times {
        latency,
        throughput,
    } = empty;
    format!(
        "{HEAD}{rows}\nNanoseconds per call, the least of {ROUNDS} medians of {REPEATS}. \
         A call that does nothing: latency {latency:.1}, throughput {throughput:.1}.\n\n{}{}",
        apart(&least),
        in_rows()
    )
}

/// Three rows that would differ if `narrow` had a branch on a tie: one that is badly foretold takes
/// longer where ties come at random.
const ALL_TIES: &str = "narrow, all ties";
const NO_TIE: &str = "narrow, no tie";
const MIXED: &str = "narrow, mixed";

/// How far the three lie apart.
fn apart(rows: &[Row]) -> String {
    let three = |row: &&Row| [ALL_TIES, NO_TIE, MIXED].contains(&row.name);
    let percent = |time: fn(Times) -> f64| {
        let times = rows.iter().filter(three).map(|row| time(row.ours));
        let mut times: Vec<f64> = times.collect();
        times.sort_by(f64::total_cmp);
        100.0 * (times[2] / times[0] - 1.0)
    };
    let (throughput, latency) = (percent(|t| t.throughput), percent(|t| t.latency));
    format!(
        "narrow on ties, none and mixed: throughput within {throughput:.1} %, \
         latency within {latency:.1} %.\n\n"
    )
}

/// As long as a block.
const ROW: usize = 120;

/// What a number takes in a row, ours beside the Rust's function of each.
fn in_rows() -> String {
    let x: Vec<f64> = doubles(983..=1063).iter().map(|x| x.abs()).collect();
    let root = in_row("root", "`f64::sqrt`", &x, ours::root_row, f64::sqrt);
    let (of_row, of_one) = (ours::ln_1p_row, replaced::ln_1p);
    let log = in_row("`ln_1p`", "`replaced`", &floats(), of_row, of_one);
    let x: Vec<f64> = doubles(ties::NORMAL).iter().map(|x| x.abs()).collect();
    let narrow = in_row("narrow", "`as f32`", &x, ours::narrow_row, |x| x as f32);
    format!("{root}{log}{narrow}")
}

/// The least of all repeats.
fn in_row<A: Value, B: Value + Default>(
    name: &str,
    beside: &str,
    x: &[A],
    of_row: fn(&mut [B], &[A]) -> bool,
    of_one: impl Fn(A) -> B,
) -> String {
    let [mut ours, mut theirs] = [f64::INFINITY; 2];
    for _ in 0..ROUNDS * REPEATS {
        ours = ours.min(row_by_row(x, |filled, row| {
            of_row(filled, row);
        }));
        theirs = theirs.min(row_by_row(x, |filled, row| {
            filled
                .iter_mut()
                .zip(row)
                .for_each(|(y, &x)| *y = of_one(x));
        }));
    }
    format!(
        "{name} in rows of {ROW}: ours {ours:.2}, {beside} {theirs:.2}, ratio {:.2}.\n",
        ours / theirs
    )
}

fn row_by_row<A: Value, B: Value + Default>(x: &[A], act: impl Fn(&mut [B], &[A])) -> f64 {
    let mut filled = [B::default(); ROW];
    let rows = x.chunks_exact(ROW);
    let count = rows.len() * ROW;
    let begun = Instant::now();
    for row in rows {
        act(black_box(&mut filled), black_box(row));
    }
    nanoseconds(begun, count)
}

/// Every function once, and last a call that does nothing.
fn round() -> Vec<Row> {
    // Hidden from the compiler, so that the call stays.
    let nothing: fn(f64) -> f64 = black_box(|x| x);
    let empty = row("nothing", "", &doubles(983..=1063), nothing, nothing);
    [exact_rows(), replaced_rows(), vec![empty]].concat()
}

fn exact_rows() -> Vec<Row> {
    let positive: Vec<f64> = doubles(983..=1063).iter().map(|x| x.abs()).collect();
    let whole = doubles(1019..=1063);
    vec![
        row("root", "`f64::sqrt`", &positive, ours::root, f64::sqrt),
        narrow_row("narrow", &doubles(ties::NORMAL)),
        narrow_row(ALL_TIES, &numbered(ties::tie)),
        narrow_row(NO_TIE, &numbered(ties::no_tie)),
        narrow_row(MIXED, &numbered(ties::mixed)),
        row("round", "`f64::round`", &whole, ours::round, f64::round),
        row("floor", "`f64::floor`", &whole, ours::floor, f64::floor),
        row("ceil", "`f64::ceil`", &whole, ours::ceil, f64::ceil),
    ]
}

fn narrow_row(name: &'static str, inputs: &[f64]) -> Row {
    row(name, "`as f32`", inputs, ours::narrow, |x| x as f32)
}

fn replaced_rows() -> Vec<Row> {
    let positive: Vec<f64> = doubles(983..=1063).iter().map(|x| x.abs()).collect();
    let powers = doubles(1017..=1028);
    let to = "`replaced`";
    vec![
        row("exp (E)", to, &powers, ours::exp, replaced::exp),
        row("ten_to", to, &powers, ours::ten_to, replaced::ten_to),
        row("ln (L)", to, &positive, ours::ln, replaced::ln),
        row("ln_1p", to, &floats(), ours::ln_1p, replaced::ln_1p),
        row("log10", to, &positive, ours::log10, replaced::log10),
    ]
}

fn doubles(fields: RangeInclusive<u64>) -> Vec<f64> {
    numbered(|n| of_field(n, &fields))
}

fn numbered<A>(input: impl Fn(u64) -> A) -> Vec<A> {
    (0..INPUTS).map(input).collect()
}

/// From 2^-10 to 2^6, so on either side of 0.375.
fn floats() -> Vec<f32> {
    let bits = |n| (117 << 23) + (pattern(n) >> 32) as u32 % (16 << 23);
    numbered(|n| f32::from_bits(bits(n)))
}

fn row<A: Value, B: Value>(
    name: &'static str,
    beside: &'static str,
    inputs: &[A],
    ours: impl Fn(A) -> B,
    theirs: impl Fn(A) -> B,
) -> Row {
    let [ours, theirs] = measure(inputs, &ours, &theirs);
    let ratios = vec![ours.throughput / theirs.throughput];
    Row {
        name,
        beside,
        ours,
        theirs,
        ratios,
    }
}

#[derive(Clone)]
struct Row {
    name: &'static str,
    beside: &'static str,
    ours: Times,
    theirs: Times,
    /// Of the throughputs, one a round.
    ratios: Vec<f64>,
}

impl Row {
    fn add(&mut self, again: Row) {
        self.ours = self.ours.least(again.ours);
        self.theirs = self.theirs.least(again.theirs);
        self.ratios.extend(again.ratios);
    }

    fn line(&self) -> String {
        let (name, beside, ours, theirs) = (self.name, self.beside, self.ours, self.theirs);
        let mut ratios = self.ratios.clone();
        ratios.sort_by(f64::total_cmp);
        format!(
            "| {name} | {beside} | {:.1} | {:.1} | {:.2} | {:.1} | {:.1} | {:.2} | {:.2}, {:.2}, {:.2} |\n",
            ours.latency,
            theirs.latency,
            ours.latency / theirs.latency,
            ours.throughput,
            theirs.throughput,
            ours.throughput / theirs.throughput,
            ratios[0],
            ratios[ratios.len() / 2],
            ratios[ratios.len() - 1],
        )
    }
}

#[derive(Clone, Copy)]
struct Times {
    latency: f64,
    throughput: f64,
}

impl Times {
    const LONGEST: Times = Times {
        latency: f64::INFINITY,
        throughput: f64::INFINITY,
    };

    fn least(self, other: Times) -> Times {
        Times {
            latency: self.latency.min(other.latency),
            throughput: self.throughput.min(other.throughput),
        }
    }
}

fn measure<A: Value, B: Value>(
    inputs: &[A],
    ours: &impl Fn(A) -> B,
    theirs: &impl Fn(A) -> B,
) -> [Times; 2] {
    let mut taken = [const { Vec::new() }; 4];
    for _ in 0..REPEATS {
        taken[0].push(latency(inputs, ours));
        taken[1].push(latency(inputs, theirs));
        taken[2].push(throughput(inputs, ours));
        taken[3].push(throughput(inputs, theirs));
    }
    let [a, b, c, d] = taken.map(median);
    [(a, c), (b, d)].map(|(latency, throughput)| Times {
        latency,
        throughput,
    })
}

/// Each input takes in the answer before it. No bit of that stays, but the compiler and the
/// processor don't know.
fn latency<A: Value, B: Value>(inputs: &[A], function: &impl Fn(A) -> B) -> f64 {
    let none = black_box(0);
    let mut link = 0;
    let begun = Instant::now();
    for x in inputs {
        link = function(A::of_bits(x.bits() | link)).bits() & none;
    }
    black_box(link);
    nanoseconds(begun, inputs.len())
}

fn throughput<A: Value, B: Value>(inputs: &[A], function: &impl Fn(A) -> B) -> f64 {
    let begun = Instant::now();
    for &x in inputs {
        black_box(function(black_box(x)));
    }
    nanoseconds(begun, inputs.len())
}

fn nanoseconds(begun: Instant, calls: usize) -> f64 {
    begun.elapsed().as_nanos() as f64 / calls as f64
}

fn median(mut times: Vec<f64>) -> f64 {
    times.sort_by(f64::total_cmp);
    times[times.len() / 2]
}
