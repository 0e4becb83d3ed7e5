//! Index, whole and local search of both sides on generated references and windows, bit for bit.

use super::case::{Candidate, Case, Frames};
use super::{cases, ours, theirs};
use crate::compare::Effort;
use crate::reached;
use crate::timeline::reaches_step_alone;
use crate::value::{same, Value};
use std::sync::atomic::{AtomicU64, Ordering::Relaxed};

const PRINTED: u64 = 20;

#[derive(Default)]
struct Tally {
    differences: AtomicU64,
    indexes: AtomicU64,
    rejected: AtomicU64,
    /// References and windows whose only fault is a step off by exactly the tolerance.
    reference_step: AtomicU64,
    window_step: AtomicU64,
    whole: AtomicU64,
    local: AtomicU64,
    /// Whole searches by what they found: none, one, several, eight; and candidates that score the
    /// same or stand exactly 750 apart.
    found: [AtomicU64; 4],
    ties: AtomicU64,
    at_750: AtomicU64,
    local_none: AtomicU64,
    local_found: AtomicU64,
    largest: AtomicU64,
    /// Margins of no candidate, one, several.
    margins: [AtomicU64; 3],
}

impl Tally {
    fn differs(&self, number: u64, what: &str) {
        if self.differences.fetch_add(1, Relaxed) < PRINTED {
            println!("matcher case {number}: {what} differs");
        }
    }

    fn note(&self, found: &[Candidate]) {
        let kind = match found.len() {
            0 => 0,
            1 => 1,
            2..8 => 2,
            _ => 3,
        };
        add_if(&self.found[kind], true);
        for pair in found.windows(2) {
            let [a, b] = [pair[0], pair[1]];
            add_if(&self.ties, a[1] == b[1]);
            add_if(&self.at_750, (a[0] - b[0]).abs() == 750.0);
        }
    }

    /// Prints what was compared. False where anything differs or was not reached.
    fn told(&self) -> bool {
        let [none, one, several, eight] = &self.found;
        let [no_margin, lone_margin, margin] = &self.margins;
        let counts = [
            ("indexes", &self.indexes),
            ("references rejected", &self.rejected),
            (
                "references rejected by one step at the tolerance",
                &self.reference_step,
            ),
            (
                "windows turned down by one step at the tolerance",
                &self.window_step,
            ),
            ("whole searches", &self.whole),
            ("whole searches of the largest size", &self.largest),
            ("whole searches without candidates", none),
            ("whole searches with one candidate", one),
            ("whole searches with several", several),
            ("whole searches with eight", eight),
            ("neighbours in a list that score the same", &self.ties),
            ("neighbours in a list exactly 750 apart", &self.at_750),
            ("local searches", &self.local),
            ("local searches without candidate", &self.local_none),
            ("local searches with a candidate", &self.local_found),
            ("margins of no candidate", no_margin),
            ("margins of one", lone_margin),
            ("margins of two to eight", margin),
        ];
        let differences = self.differences.load(Relaxed);
        println!("matcher       {differences} differences");
        let reached = reached::told(&counts.map(|(name, count)| (name, count.load(Relaxed))));
        differences == 0 && reached
    }
}

fn add_if(count: &AtomicU64, reached: bool) {
    count.fetch_add(u64::from(reached), Relaxed);
}

pub fn check(effort: Effort) -> bool {
    let tally = Tally::default();
    let (cases, largest) = effort.pick((6_000, 1), (150_000, 12));
    effort.each("matcher", cases, |number| {
        compare(number, &cases::small(number), &tally);
    });
    let small = tally.whole.load(Relaxed);
    effort.each("matcher", largest, |number| {
        compare(number, &cases::largest(number), &tally);
    });
    let searched = tally.whole.load(Relaxed) - small;
    tally.largest.store(searched, Relaxed);
    if !ours::refuses_margins() {
        tally.differs(cases, "what no margin is told of");
    }
    tally.told()
}

fn compare(number: u64, case: &Case, tally: &Tally) {
    let tail = (number % 3) as usize * 5;
    let theirs = theirs::Matcher::new(&case.reference, case.hop);
    let mut index = ours::Index::empty(&case.reference, case.hop, tail);
    let filled = index.fill(&case.reference.times, &case.reference.by_band());
    if filled != theirs.is_some() {
        tally.differs(number, "whether the reference is accepted");
        return;
    }
    let Some(theirs) = theirs else {
        add_if(&tally.rejected, true);
        let step = reaches_step_alone(&case.reference.times, case.hop);
        add_if(&tally.reference_step, step && has_values(&case.reference));
        if !untouched(&index) {
            tally.differs(number, "a buffer of a rejected reference");
        }
        return;
    };
    add_if(&tally.indexes, true);
    compare_index(number, &index, &theirs, tally);
    compare_searches(number, case, &index, &theirs, tail, tally);
}

/// A rejected reference changes no buffer.
fn untouched(index: &ours::Index) -> bool {
    let old = ours::OLD;
    index.fine.iter().all(|&x| x == old as f32)
        && index.coarse.iter().all(|&x| x == old as f32)
        && index.fine_energy.iter().all(|&x| x == old)
        && index.coarse_energy.iter().all(|&x| x == old)
}

fn compare_index(number: u64, index: &ours::Index, theirs: &theirs::Matcher, tally: &Tally) {
    let (fine, coarse, fine_energy, coarse_energy) = theirs.index();
    let old = ours::OLD;
    let rows = [
        ("the fine row", front_is(&index.fine, &fine, old as f32)),
        (
            "the coarse row",
            front_is(&index.coarse, &coarse, old as f32),
        ),
        (
            "the fine energies",
            front_is(&index.fine_energy, &fine_energy, old),
        ),
        (
            "the coarse energies",
            front_is(&index.coarse_energy, &coarse_energy, old),
        ),
    ];
    for (what, equal) in rows {
        if !equal {
            tally.differs(number, what);
        }
    }
}

/// Whether the buffer begins with the row and goes on as it was.
fn front_is<V: Value>(buffer: &[V], row: &[V], old: V) -> bool {
    let (front, tail) = buffer.split_at(row.len());
    front.iter().zip(row).all(|(&x, &y)| same(x, y)) && tail.iter().all(|&x| same(x, old))
}

fn compare_searches(
    number: u64,
    case: &Case,
    index: &ours::Index,
    theirs: &theirs::Matcher,
    tail: usize,
    tally: &Tally,
) {
    let their_query = theirs::Query::new(&case.window);
    let mut our_query = ours::Query::new(&case.window, case.reference.len(), tail);
    if !fits(&case.window) {
        return;
    }
    let step = reaches_step_alone(&case.window.times, case.hop);
    add_if(&tally.window_step, step && is_searchable(case));
    let whole = index.whole(&mut our_query);
    let expected = theirs.search(&their_query, None);
    add_if(&tally.whole, true);
    tally.note(&expected);
    compare_found(number, "the whole search", &whole, &expected, tally);
    for &(lower, upper) in &case.ranges {
        let local = index.local(&mut our_query, lower, upper);
        let expected = theirs.search(&their_query, Some((lower, upper)));
        add_if(&tally.local, true);
        add_if(&tally.local_none, expected.is_empty());
        add_if(&tally.local_found, !expected.is_empty());
        compare_found(number, "a local search", &local, &expected, tally);
    }
    if !equal(&whole, &index.whole(&mut our_query)) {
        tally.differs(number, "a search over used buffers");
    }
}

/// Every number of every candidate, and the margin.
fn compare_found(
    number: u64,
    what: &str,
    found: &[Candidate],
    expected: &[Candidate],
    tally: &Tally,
) {
    if !equal(found, expected) {
        tally.differs(number, what);
    }
    add_if(&tally.margins[expected.len().min(2)], true);
    if !same(ours::margin(expected), theirs::margin(expected)) {
        tally.differs(number, &format!("the margin of {what}"));
    }
}

/// Whether the window can be searched if its times are regular.
fn is_searchable(case: &Case) -> bool {
    let (reference, window) = (&case.reference, &case.window);
    let trimmed = 2 * cases::radius(case.hop);
    window.bands == reference.bands
        && window.len() > trimmed + 16
        && window.len() <= trimmed + reference.len()
        && has_values(window)
}

/// Whether there are bands, and in them only what they may hold.
fn has_values(frames: &Frames) -> bool {
    let valid = |value: &f32| value.is_finite() && *value >= 0.0;
    frames.bands > 0 && frames.values.iter().all(valid)
}

/// The port's limit of a window.
fn fits(window: &Frames) -> bool {
    window.len() <= 1_024
}

fn equal(left: &[Candidate], right: &[Candidate]) -> bool {
    left.len() == right.len()
        && left
            .iter()
            .flatten()
            .zip(right.iter().flatten())
            .all(|(&x, &y)| same(x, y))
}
