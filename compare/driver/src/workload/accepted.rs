//! Loads as references: of 2 frames and a band or more, each is taken by the Rust and by the port.

use super::called::Called;
use super::cases;
use super::check::{add_if, Tally};
use super::ours::FILLED;
use super::reading::Input;
use crate::compare::Effort;
use crate::engine::both::{Both, Opened};
use crate::engine::session::Opening;
use crate::family::pattern;
use crate::random::Random;
use sonalign::types::Configuration;

const HOPS: [f64; 16] = [
    1.0,
    1.000_000_000_000_000_2,
    2.5,
    10.0,
    16.0,
    20.0,
    23.22,
    33.3,
    50.0,
    100.0,
    250.0,
    500.0,
    501.0,
    999.5,
    999.999_999_999_999_9,
    1_000.0,
];

/// Frames and bands.
const SIZES: [(usize, usize); 8] = [
    (0, 0),
    (1, 3),
    (30, 0),
    (2, 1),
    (2, 64),
    (3, 1),
    (5, 2),
    (130, 4),
];

pub fn check(effort: Effort, tally: &Tally) {
    let inputs = inputs(effort);
    effort.each("load", inputs.len() as u64, |number| {
        compare(&inputs[number as usize], tally);
    });
}

fn inputs(effort: Effort) -> Vec<Input> {
    let mut inputs = Vec::new();
    for hop in HOPS {
        inputs.extend(SIZES.map(|(frames, bands)| Input::fitting(3, hop, bands, frames)));
    }
    inputs.extend((0..effort.pick(100, 3_000)).map(random));
    for hop in effort.pick(&[][..], &HOPS) {
        inputs.push(Input::fitting(5, *hop, 2, 65_535));
    }
    for hop in effort.pick(&[][..], &[1.0, 23.22, 1_000.0]) {
        inputs.push(Input::fitting(5, *hop, 64, 65_535));
    }
    inputs
}

fn random(n: u64) -> Input {
    let mut random = Random::new(pattern(!n));
    let (seed, hop) = (cases::seed(&mut random), cases::hop(&mut random));
    let (bands, frames) = (1 + random.below(16), 2 + random.below(300));
    Input::fitting(seed, hop, bands, frames)
}

fn compare(input: &Input, tally: &Tally) {
    let expected = input.times >= 2 && input.bands >= 1;
    match is_taken(input) {
        Ok(taken) if taken == expected => {
            add_if(&tally.references, taken);
            add_if(&tally.no_references, !taken);
        }
        Ok(taken) => tally.differs(input, &format!("taken for a reference: {taken}")),
        Err(what) => tally.differs(input, &format!("as a reference, {what}")),
    }
}

/// Whether both open with an index of it. An error says what differs.
fn is_taken(input: &Input) -> Result<bool, String> {
    let called = Called::new(input);
    if called.code != FILLED {
        return Err(format!("answer {}", called.code));
    }
    let opening = Opening {
        configuration: Configuration::default(),
        hop: input.hop,
        reference: called.load(input.bands).into(),
        short: None,
    };
    match Both::open(&opening, 0)? {
        Opened::Opened(both) => Ok(both.theirs.is_indexed()),
        Opened::Refused(code) => Err(format!("refused {code} by both")),
    }
}

#[cfg(test)]
mod tests {
    use super::*;

    #[test]
    fn a_load_is_taken_from_two_frames_on() {
        let taken = |bands, frames| is_taken(&Input::fitting(1, 23.22, bands, frames));
        assert_eq!(taken(1, 2), Ok(true));
        assert_eq!(taken(1, 1), Ok(false));
        assert_eq!(taken(0, 2), Ok(false));
    }

    #[test]
    fn both_ends_of_the_hop_are_among_them() {
        for effort in [Effort::QUICK, Effort::full()] {
            let inputs = inputs(effort);
            let has = |hop| inputs.iter().any(|i| i.hop == hop && i.times > 2);
            assert!(has(1.0) && has(1_000.0));
        }
    }
}
