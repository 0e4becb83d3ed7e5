//! Loads filled by the library beside the driver's own, bit for bit; what it refuses; loads as
//! references.

use super::called::Called;
use super::generator::{self, Draws, Figures, FIGURES};
use super::kinds::KINDS;
use super::ours::FILLED;
use super::reading::{Input, REFUSALS};
use super::{accepted, cases, refusals};
use crate::compare::Effort;
use crate::reached;
use std::sync::atomic::{AtomicU64, Ordering::Relaxed};

const PRINTED: u64 = 20;

/// As REFUSALS are.
const REFUSED: [&str; REFUSALS.len()] = [
    "refused 16: the seed",
    "refused 2: the hop",
    "refused 3: too many frames or bands",
    "refused 4: a length",
];

#[derive(Default)]
pub struct Tally {
    differences: AtomicU64,
    filled: AtomicU64,
    /// Of what was filled.
    kinds: [AtomicU64; KINDS.len()],
    refused: [AtomicU64; REFUSALS.len()],
    pub pairs: AtomicU64,
    pub limits: AtomicU64,
    pub references: AtomicU64,
    pub no_references: AtomicU64,
}

impl Tally {
    pub fn differs(&self, input: &Input, what: &str) {
        if self.differences.fetch_add(1, Relaxed) < PRINTED {
            println!("load of {input}: {what}");
        }
    }

    /// Calls, and holds the answer and all that was lent to the rules.
    pub fn compare(&self, input: &Input) {
        let called = Called::new(input);
        let expected = input.answer();
        let differences = match called.code {
            code if code != expected => vec![format!("answer {code}, not {expected}")],
            FILLED => self.compare_filled(input, &called),
            _ => self.compare_refused(&called),
        };
        for what in differences {
            self.differs(input, &what);
        }
    }

    fn compare_filled(&self, input: &Input, called: &Called) -> Vec<String> {
        let load = generator::load(input);
        add_if(&self.filled, true);
        for (count, (_, shows)) in self.kinds.iter().zip(KINDS) {
            add_if(count, shows(input, &load));
        }
        called.differences(&load)
    }

    fn compare_refused(&self, called: &Called) -> Vec<String> {
        for (count, number) in self.refused.iter().zip(REFUSALS) {
            add_if(count, called.code == number);
        }
        called.written()
    }

    /// Prints what was compared. False where anything differs or was not reached.
    fn told(&self) -> bool {
        let mut counts = vec![("loads filled", &self.filled)];
        counts.extend(KINDS.map(|(name, _)| name).into_iter().zip(&self.kinds));
        counts.extend(REFUSED.into_iter().zip(&self.refused));
        counts.extend([
            ("pairs of faults", &self.pairs),
            ("filled at a limit", &self.limits),
            ("loads that both take for a reference", &self.references),
            ("loads too small for that", &self.no_references),
        ]);
        let differences = self.differences.load(Relaxed);
        println!("load          {differences} differences");
        let count = |(name, count): &(&'static str, &AtomicU64)| (*name, count.load(Relaxed));
        let reached = reached::told(&counts.iter().map(count).collect::<Vec<_>>());
        differences == 0 && reached
    }
}

pub fn add_if(count: &AtomicU64, reached: bool) {
    count.fetch_add(u64::from(reached), Relaxed);
}

pub fn check(effort: Effort) -> bool {
    let tally = Tally::default();
    for figures in FIGURES {
        compare_figures(&figures, &tally);
    }
    let fixed = cases::fixed();
    effort.each("load", fixed.len() as u64, |number| {
        tally.compare(&fixed[number as usize]);
    });
    effort.each("load", effort.pick(400, 40_000), |number| {
        tally.compare(&cases::random(number));
    });
    refusals::check(&tally);
    accepted::check(effort, &tally);
    tally.told()
}

/// Both sides by themselves: the driver draws the figures, and the library has their values.
fn compare_figures(figures: &Figures, tally: &Tally) {
    let count = figures.draws.len();
    let input = Input::fitting(figures.seed, 20.0, 1, count);
    let draws: Vec<u64> = Draws::of(figures.seed).take(count).collect();
    if draws != figures.draws {
        tally.differs(&input, &format!("the driver draws {draws:?}"));
    }
    let load = Called::new(&input).load(input.bands);
    let values: Vec<f64> = load.values.into_iter().map(f64::from).collect();
    if values != figures.values {
        let expected = figures.values;
        tally.differs(&input, &format!("values {values:?}, not {expected:?}"));
    }
}

#[cfg(test)]
mod tests {
    use super::*;

    #[test]
    fn what_is_compared_is_counted() {
        let tally = Tally::default();
        tally.compare(&Input::fitting(1, 23.22, 3, 20));
        tally.compare(&Input::fitting(0, 23.22, 3, 20));
        assert_eq!(tally.differences.load(Relaxed), 0);
        assert_eq!(tally.filled.load(Relaxed), 1);
        assert_eq!(tally.refused[0].load(Relaxed), 1);
        assert!(!tally.told(), "little is reached");
    }

    #[test]
    fn figures_that_differ_are_told() {
        let tally = Tally::default();
        let [first, second] = FIGURES;
        compare_figures(&first, &tally);
        assert_eq!(tally.differences.load(Relaxed), 0);
        let wrong = Figures {
            draws: &second.draws[..2],
            values: &first.values[..2],
            ..second
        };
        compare_figures(&wrong, &tally);
        assert_eq!(tally.differences.load(Relaxed), 1);
    }
}
