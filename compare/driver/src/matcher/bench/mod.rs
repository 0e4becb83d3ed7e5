//! Opening, whole and local search of the port beside the two builds of the Rust, as the tables for
//! docs/BENCHMARKS.md.

pub mod clock;
mod instructions;
mod rounds;
pub mod sides;

use clock::worked;
use instructions::Instructions;
use rounds::Taken;
use sides::{Operation, Side, Sides, Size};
use std::time::Duration;

const ROUNDS: usize = 31;

const LENGTHS: [usize; 4] = [8_192, 16_384, 32_768, 65_535];

/// A search takes 43 to 1,024 frames here.
const WINDOWS: [usize; 5] = [100, 150, 250, 500, 1_000];

const HEAD: &str = "\
| operation | bands × frames | window | ours, ms | comparison build, ms | ratio | ratio in the rounds: least, median, most | Rust's own, ms | ratio | ns each: ours | comparison build | Rust's own |
|---|---|---|---|---|---|---|---|---|---|---|---|
";

const LIMIT_HEAD: &str = "\
| window | values | products and sums, ns | root and division, ns | limit, ns | in turn, ns | ours, ns | comparison build, ns | Rust's own, ns | ours ÷ limit | Rust's own ÷ limit |
|---|---|---|---|---|---|---|---|---|---|---|
";

pub fn table() -> String {
    let by_operation: String = [Size::new(65_535, 250), Size::SMALL]
        .into_iter()
        .map(|size| rows(size, &Operation::ALL))
        .collect();
    let by_length: String = LENGTHS
        .into_iter()
        .map(|frames| rows(Size::new(frames, 250), &[Operation::Whole]))
        .collect();
    let by_window: String = WINDOWS
        .into_iter()
        .map(|window| rows(Size::new(16_384, window), &Operation::SEARCHES))
        .collect();
    format!(
        "{HEAD}{by_operation}\n\
         Processor time, the least of {ROUNDS} rounds in turns, each side for itself. Hop 20. \
         `ns each`: a search by its places × bands, an opening by its values, which are bands × \
         frames. A place is one of the averaged scores in a whole search, one of the range in a \
         local one.\n\n\
         By the reference's length:\n\n{HEAD}{by_length}\n\
         By the window's length:\n\n{HEAD}{by_window}\n\
         Beside the least that SSE2 takes for the averaged scores:\n\n{}",
        limit()
    )
}

fn rows(size: Size, operations: &[Operation]) -> String {
    let mut sides = Sides::new(size);
    operations
        .iter()
        .map(|&operation| {
            let taken = measure(&mut sides, operation);
            line(operation, size, &taken, sides.count(operation))
        })
        .collect()
}

fn measure(sides: &mut Sides, operation: Operation) -> Taken {
    Taken::new(ROUNDS, |side| sides.act(operation, side))
}

fn line(operation: Operation, size: Size, taken: &Taken, count: usize) -> String {
    let times = Side::ALL.map(|side| taken.least(side));
    let [ours, replaced, own] = times;
    let each = times.map(|time| time * 1e6 / count as f64);
    let [least, median, most] = taken.ratios(Side::Ours, Side::Replaced);
    format!(
        "| {} | {} × {} | {} | {ours:.3} | {replaced:.3} | {:.2} | {least:.2}, {median:.2}, {most:.2} | {own:.3} | {:.2} | {:.1} | {:.1} | {:.1} |\n",
        operation.name(),
        size.bands,
        size.frames,
        size.window,
        ours / replaced,
        ours / own,
        each[0],
        each[1],
        each[2],
    )
}

/// What a further place of a whole search takes, beside the least for its operations.
fn limit() -> String {
    let machine = Instructions::measured(ROUNDS);
    let rows: String = WINDOWS
        .into_iter()
        .map(|window| limit_line(&machine, window))
        .collect();
    format!(
        "{LIMIT_HEAD}{rows}\n\
         Nanoseconds a place and band. `values`: a place's in a band, each a product and a sum, four \
         a vector; then a root and a division, two a vector. `limit`: the larger of the two, since \
         they can overlap; `in turn`: both. Not counted: reading, the sum of the lanes, energies. \
         Ours and the Rust's: what a further place takes, by the distance of whole searches of \
         64 × 16384 and 64 × 65535, so without the window's centring. {machine}\n"
    )
}

fn limit_line(machine: &Instructions, window: usize) -> String {
    let values = Size::new(65_535, window).averaged();
    let [near, far] = [16_384, 65_535].map(|frames| {
        let mut sides = Sides::new(Size::new(frames, window));
        let taken = measure(&mut sides, Operation::Whole);
        (taken, sides.count(Operation::Whole))
    });
    let places = (far.1 - near.1) as f64;
    let further = |side| (far.0.least(side) - near.0.least(side)) * 1e6 / places;
    let [ours, replaced, own] = Side::ALL.map(further);
    let sums = machine.pair * values as f64 / 4.0;
    let root = machine.quotient / 2.0;
    let limit = sums.max(root);
    format!(
        "| {window} | {values} | {sums:.1} | {root:.1} | {limit:.1} | {:.1} | {ours:.1} | {replaced:.1} | {own:.1} | {:.1} | {:.1} |\n",
        sums + root,
        ours / limit,
        own / limit,
    )
}

/// Repeats an operation of one side for some seconds, for a profiler to look at. None where there
/// is no such operation or side.
pub fn repeat(operation: &str, side: &str) -> Option<String> {
    let acted = Operation::ALL.into_iter().find(|o| o.word() == operation)?;
    let acting = Side::ALL.into_iter().find(|s| s.word() == side)?;
    let mut sides = Sides::new(Size::new(65_535, 250));
    let begun = worked();
    let mut times = 0;
    while worked() - begun < Duration::from_secs(5) {
        sides.act(acted, acting);
        times += 1;
    }
    let each = (worked() - begun).as_secs_f64() * 1e3 / f64::from(times);
    Some(format!(
        "{operation} {side}: {times} times, {each:.3} ms each\n"
    ))
}
