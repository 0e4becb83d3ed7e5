//! Sessions by number: every run makes the same, so that a difference names one that can be made
//! again.

mod families;
mod margins;
mod openings;
pub mod scene;
pub mod sound;
pub mod steps;

use super::session::Session;
use crate::family::pattern;
use crate::random::Random;

/// Session n.
pub fn session(n: u64) -> Session {
    let random = Random::new(pattern(n ^ 0x5e55_1045));
    match n % 24 {
        0..=9 => families::general(random),
        10 => families::far(random),
        11 => families::tiny(random),
        12 => families::chains(random),
        13 => families::held(random),
        14 => families::coasts(random),
        15 => families::at_hop_1000(random),
        16 => families::distant(random),
        17 => families::repeats(random),
        18 => margins::session(random),
        19 => families::edges(random),
        20 if (n / 24).is_multiple_of(16) => families::past_half(random, n / 24 / 16),
        20 => families::pulses(random),
        21 => families::extreme(random),
        22 => openings::session(random),
        _ => families::large(random, n / 24),
    }
}
