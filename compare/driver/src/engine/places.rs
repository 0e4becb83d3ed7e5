//! How far the place shown moves from one Locked answer of the Rust to the next, where the second has
//! no reason to withhold and ends no chain: checked without rounding.

use super::kinds::{ends_chain, evidence};
use super::ours::COMPUTED;
use super::theirs::Seen;
use crate::exact::Units;
use crate::reached;
use sonalign::types::{Snapshot, State};
use std::sync::{Mutex, PoisonError};

/// 80.001 and 0.001 in thousandths, as document 02 asks; and 80 + 3 × 2^-47 and 2 × 2^-47.
const BOUNDS: [(u64, u64, u64); 2] = [(80_001, 1, 1_000), ((80 << 47) + 3, 2, 1 << 47)];

/// From the old place to the new one.
struct Step {
    old: f64,
    /// What the search found best, where it was no whole one.
    best: Option<f64>,
    new: f64,
}

impl Step {
    /// Of two computed answers in a row. An error says what is missing.
    fn between(
        hop: f64,
        before: Option<&Snapshot>,
        after: &Snapshot,
    ) -> Result<Option<Self>, String> {
        let supported = after.state == State::Locked && after.withhold_reason.is_none();
        if !supported || ends_chain(hop, after) {
            return Ok(None);
        }
        let locked = before.filter(|before| before.state == State::Locked);
        let place = |snapshot: &Snapshot| snapshot.estimate.as_ref().map(|at| at.offset_ms);
        let first = after.diagnostics.candidates.first();
        let best = match (after.diagnostics.spectral.global_search, first) {
            (true, _) => None,
            (false, Some(first)) => Some(first.offset_ms),
            (false, None) => return Err("a supported place without candidate".into()),
        };
        match (locked.and_then(place), place(after)) {
            (Some(old), Some(new)) => Ok(Some(Self { old, best, new })),
            _ => Err("a Locked answer that goes on from none".into()),
        }
    }

    fn moved(&self) -> Units {
        Units::between(self.new, self.old)
    }

    /// How far the new place lies outside the stretch from the old one to the best.
    fn outside(&self) -> Units {
        let Some(best) = self.best else {
            return Units::ZERO;
        };
        let (low, high) = (self.old.min(best), self.old.max(best));
        if self.new < low {
            Units::between(self.new, low)
        } else if self.new > high {
            Units::between(self.new, high)
        } else {
            Units::ZERO
        }
    }

    fn check(&self) -> Result<(), String> {
        let (moved, outside) = (self.moved(), self.outside());
        for (most, beyond, d) in BOUNDS {
            if !moved.is_at_most(most, d) || !outside.is_at_most(beyond, d) {
                return Err(format!(
                    "the place leaps from {} to {}, best {:?}: by {} ms, {} ms outside",
                    self.old,
                    self.new,
                    self.best,
                    moved.ms(),
                    outside.ms()
                ));
            }
        }
        Ok(())
    }

    /// Which of `KINDS` it is of.
    fn kinds(&self, seen: &Seen, before: Option<&Snapshot>) -> [bool; KINDS.len()] {
        let since = seen.before.accepted.map(|track| evidence(seen) - track[2]);
        let toward = |is: fn(f64, f64) -> bool| self.best.is_some_and(|best| is(self.old, best));
        [
            true,
            self.best.is_none(),
            before.is_some_and(|before| before.withhold_reason.is_some()),
            since == Some(1_500.0),
            toward(|old, best| (best - old).abs() == 80.0),
            toward(|old, best| (79.0..80.0).contains(&(best - old).abs())),
            toward(|old, best| old == best),
            toward(|old, best| Units::between(best, old) != Units::between(best - old, 0.0)),
            toward(|old, best| old.signum() != best.signum()),
            self.old > 1.99e12,
            self.old < -1.99e12,
            seen.settings.hop == 1_000.0,
        ]
    }
}

const KINDS: [&str; 12] = [
    "step of a Locked place",
    "step beside a whole search that ends no chain",
    "step after a coast",
    "step exactly 1,500 after the last evidence",
    "step toward a best exactly 80 away",
    "step toward a best 79 to 80 away",
    "step toward the place itself",
    "step whose way f64 rounds",
    "step from one side of offset 0 to the other",
    "step above 1.99 × 10^12",
    "step below -1.99 × 10^12",
    "step at hop 1,000",
];

/// All steps that were seen.
pub struct Steps(Mutex<Most>);

struct Most {
    counts: [u64; KINDS.len()],
    moved: Units,
    outside: Units,
}

impl Steps {
    pub fn new() -> Self {
        Self(Mutex::new(Most {
            counts: [0; KINDS.len()],
            moved: Units::ZERO,
            outside: Units::ZERO,
        }))
    }

    /// Checks what is seen, after the computed answer before it.
    pub fn note(&self, before: Option<&Snapshot>, seen: &Seen) -> Result<(), String> {
        let Some(after) = seen.snapshot.as_ref().filter(|_| seen.code == COMPUTED) else {
            return Ok(());
        };
        let Some(step) = Step::between(seen.settings.hop, before, after)? else {
            return Ok(());
        };
        let kinds = step.kinds(seen, before);
        let mut most = self.0.lock().unwrap_or_else(PoisonError::into_inner);
        for (count, reached) in most.counts.iter_mut().zip(kinds) {
            *count += u64::from(reached);
        }
        most.moved = most.moved.max(step.moved());
        most.outside = most.outside.max(step.outside());
        step.check()
    }

    /// Prints the largest and the table. False where a kind was not reached.
    pub fn told(&self) -> bool {
        let most = self.0.lock().unwrap_or_else(PoisonError::into_inner);
        println!(
            "places        {} steps while Locked, of at most {} ms, at most {} ms outside the stretch",
            most.counts[0],
            most.moved.ms(),
            most.outside.ms()
        );
        let counts: Vec<(&str, u64)> = KINDS.into_iter().zip(most.counts).collect();
        reached::told(&counts)
    }
}

#[cfg(test)]
mod tests {
    use super::Step;

    #[test]
    fn a_leap_is_seen() {
        let step = |old: f64, best: f64, new: f64| Step {
            old,
            best: Some(best),
            new,
        };
        assert!(step(-3_002.0, -3_050.0, -3_032.0).check().is_ok());
        assert!(step(2e12, 2e12 + 80.0, 2e12 + 80.0).check().is_ok());
        // Away from the best, past it, and further than 80.
        assert!(step(10.0, 50.0, 9.9).check().is_err());
        assert!(step(10.0, 50.0, 50.1).check().is_err());
        assert!(step(10.0, 100.0, 90.1).check().is_err());
        // A little past it, which 0.001 would let pass.
        assert!(step(10.0, 50.0, 50.000_000_000_000_1).check().is_err());
    }
}
