//! Calls two functions on the same inputs and reports where they differ.

use crate::family::Family;
use crate::progress::Progress;
use crate::value::{same, Value};
use std::sync::atomic::{AtomicU64, AtomicUsize, Ordering::Relaxed};
use std::thread;

/// How much is compared, and on how many threads.
#[derive(Clone, Copy)]
pub struct Effort {
    quick: bool,
    threads: usize,
}

impl Effort {
    /// The gate's: one thread, since others share its machine.
    pub const QUICK: Self = Self {
        quick: true,
        threads: 1,
    };

    pub fn full() -> Self {
        let threads = thread::available_parallelism().map_or(1, usize::from);
        Self {
            quick: false,
            threads,
        }
    }

    /// Does the same for every number below `count`, in whatever order the threads come to it.
    pub fn each(self, name: &str, count: u64, act: impl Fn(u64) + Sync) {
        let progress = Progress::new(name, count);
        let next = AtomicU64::new(0);
        let work = || loop {
            let number = next.fetch_add(1, Relaxed);
            if number >= count {
                return;
            }
            act(number);
            progress.advance(1);
        };
        thread::scope(|scope| {
            for _ in 0..self.threads {
                scope.spawn(work);
            }
        });
    }

    pub fn pick<T>(self, quick: T, full: T) -> T {
        if self.quick {
            quick
        } else {
            full
        }
    }
}

const PRINTED: u64 = 20;
const BLOCK: u64 = 1 << 16;

/// The inputs `from` to `to` of one family: what a thread takes at a time.
struct Block {
    family: usize,
    from: u64,
    to: u64,
}

/// Whether `ours` and `theirs` answer the same to all inputs. Prints the first differences and a
/// line with the counts.
pub fn compare<A: Value, B: Value>(
    name: &str,
    ours: impl Fn(A) -> B + Sync,
    theirs: impl Fn(A) -> B + Sync,
    families: &[Family<A>],
    effort: Effort,
) -> bool {
    let total = families.iter().map(|family| family.count).sum();
    let progress = Progress::new(name, total);
    let (compared, differences) = (AtomicU64::new(0), AtomicU64::new(0));
    let blocks = blocks(families);
    let next = AtomicUsize::new(0);
    let work = || {
        while let Some(block) = blocks.get(next.fetch_add(1, Relaxed)) {
            let at = &families[block.family].at;
            for x in (block.from..block.to).map(at) {
                let (left, right) = (ours(x), theirs(x));
                if !same(left, right) && differences.fetch_add(1, Relaxed) < PRINTED {
                    print_difference(name, x, left, right);
                }
            }
            compared.fetch_add(block.to - block.from, Relaxed);
            progress.advance(block.to - block.from);
        }
    };
    thread::scope(|scope| {
        for _ in 0..effort.threads {
            scope.spawn(work);
        }
    });
    let (compared, differences) = (compared.into_inner(), differences.into_inner());
    println!("{name:<15} {compared:>10} inputs, {differences} differences");
    let whole = families.iter().all(|family| family.count > 0) && compared > 0 && compared == total;
    if !whole {
        println!(
            "{name}: NOT ALL INPUTS COMPARED: {compared} of {total}, in {} families",
            families.len()
        );
    }
    whole && differences == 0
}

fn print_difference<A: Value, B: Value>(name: &str, input: A, ours: B, theirs: B) {
    let (input, ours, theirs) = (input.shown(), ours.shown(), theirs.shown());
    println!("{name} of {input}: ours {ours}, Rust {theirs}");
}

fn blocks<A>(families: &[Family<A>]) -> Vec<Block> {
    let mut blocks = Vec::new();
    for (number, family) in families.iter().enumerate() {
        for from in (0..family.count).step_by(BLOCK as usize) {
            blocks.push(Block {
                family: number,
                from,
                to: family.count.min(from + BLOCK),
            });
        }
    }
    blocks
}
