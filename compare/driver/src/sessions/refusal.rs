//! What a submission to an opened engine is refused with, by document 01's words. The Rust refuses
//! less, and in other ways.

use super::session::{Lent, Submission};

const FARTHEST: f64 = 1e12;

/// The number of the first refusal that applies. 7 can't, since no state is made by hand. Nor can 6
/// without index: no session asks for it.
pub fn refusal(submission: &Submission) -> Option<u8> {
    let window = &submission.window;
    let frames = window.times.len();
    if submission.lent == Lent::NoIndex {
        Some(6)
    } else if !submission.clock.is_finite() {
        Some(8)
    } else if frames == 0 {
        Some(9)
    } else if frames > 1_024 || window.bands > 64 {
        Some(10)
    } else if !window.is_well_formed() {
        Some(11)
    } else if !window.times.iter().all(|time| time.abs() <= FARTHEST)
        || !window.energies.iter().all(|energy| *energy < f64::INFINITY)
    {
        Some(12)
    } else if submission.lent == Lent::NoWork {
        Some(13)
    } else {
        None
    }
}
