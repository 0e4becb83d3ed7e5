//! Why a call is refused.

use std::error::Error;
use std::fmt;

/// Why a call is refused, by the numbers that the library answers with. A refused call leaves the
/// engine, and what it was lent, as it was.
///
/// [`Engine::try_new`](crate::Engine::try_new) refuses with 1, 2, 3 and 5,
/// [`Engine::try_process`](crate::Engine::try_process) with 8, 10 and 12, and with 7 and 6 a
/// restored state that is none of its reference's,
/// [`Engine::keep`](crate::Engine::keep) with 14 and 6,
/// [`Engine::restore`](crate::Engine::restore) with 14, 6 and 15,
/// [`workload::fill`](crate::workload::fill) with 16, 2, 3 and 4. The others speak of buffers and
/// windows that this crate does not let come about; C callers meet them.
#[derive(Debug, Clone, Copy, PartialEq, Eq, Hash)]
pub enum Refusal {
    /// 1: the configuration fails [`Configuration::validate`](crate::Configuration::validate).
    InvalidConfiguration = 1,
    /// 2: the hop is not from 1 to 1,000 ms.
    HopOutOfRange = 2,
    /// 3: more than 65,535 frames or 64 bands in the reference or the load.
    ReferenceTooLarge = 3,
    /// 4: the values of the reference or the load are not frames × bands, or a load's energies are
    /// not as many as its frames.
    ReferenceMiscounted = 4,
    /// 5: a finite time of the reference lies beyond ±10^12 ms.
    ReferenceTimeTooFar = 5,
    /// 6: an index buffer is too short, for the reference that is opened or for the state.
    IndexTooShort = 6,
    /// 7: the state holds a number out of range.
    StateOutOfRange = 7,
    /// 8: the clock reading is not finite.
    ClockNotFinite = 8,
    /// 9: the window has no frames.
    NoFrames = 9,
    /// 10: more than 1,024 frames or 64 bands in the window.
    WindowTooLarge = 10,
    /// 11: the window has no bands, counts that disagree, or a value that is negative or not finite.
    WindowInvalid = 11,
    /// 12: a time of the window is not finite or lies beyond ±10^12 ms, or an energy is NaN or plus
    /// infinity.
    WindowTimeOutOfRange = 12,
    /// 13: a working buffer is too short.
    WorkTooShort = 13,
    /// 14: the name of a place is not from 1 to [`PLACES`](crate::PLACES).
    NameOutOfRange = 14,
    /// 15: nothing is kept under the name.
    NothingKept = 15,
    /// 16: the seed is 0.
    SeedZero = 16,
    /// 6, as [`number`](Self::number) says and a cast can't: the store has fewer than
    /// [`STORE_WORDS`](crate::STORE_WORDS) words.
    StoreTooShort,
}

impl Refusal {
    /// All but those of named places, in the order of their numbers.
    pub const ALL: [Self; 14] = [
        Self::InvalidConfiguration,
        Self::HopOutOfRange,
        Self::ReferenceTooLarge,
        Self::ReferenceMiscounted,
        Self::ReferenceTimeTooFar,
        Self::IndexTooShort,
        Self::StateOutOfRange,
        Self::ClockNotFinite,
        Self::NoFrames,
        Self::WindowTooLarge,
        Self::WindowInvalid,
        Self::WindowTimeOutOfRange,
        Self::WorkTooShort,
        Self::SeedZero,
    ];

    /// Those of named places, which [`Engine::keep`](crate::Engine::keep) and
    /// [`Engine::restore`](crate::Engine::restore) alone answer with.
    pub const OF_PLACES: [Self; 3] = [Self::StoreTooShort, Self::NameOutOfRange, Self::NothingKept];

    /// Its number: from 1 to 13, or 16; of named places 6, 14 or 15.
    pub fn number(self) -> u32 {
        match self {
            // The cases of an enum can't have one number.
            Self::StoreTooShort => Self::IndexTooShort as u32,
            other => other as u32,
        }
    }

    /// One of [`ALL`](Self::ALL): of 6 it is the index's.
    pub(crate) fn from_number(number: u32) -> Option<Self> {
        Self::ALL
            .into_iter()
            .find(|refusal| refusal.number() == number)
    }

    /// The refusal that a call without a store answered with.
    pub(crate) fn answered(code: u32) -> Self {
        Self::from_number(code).unwrap_or_else(|| mismatched())
    }

    /// The refusal that a call with a store, and so without an index, answered with.
    pub(crate) fn answered_of_store(code: u32) -> Self {
        Self::OF_PLACES
            .into_iter()
            .find(|refusal| refusal.number() == code)
            .unwrap_or_else(|| Self::answered(code))
    }

    /// What is wrong, and what to do.
    fn text(self) -> &'static str {
        match self {
            Self::InvalidConfiguration => "the configuration is out of range: give durations that are finite and above 0, finite energies and a fraction from 0 to 1",
            Self::HopOutOfRange => "the hop is out of range: give one from 1 to 1,000 ms",
            Self::ReferenceTooLarge => "the reference or load is too large: give at most 65,535 frames of at most 64 bands, or use a longer hop",
            Self::ReferenceMiscounted => "the counts of the reference or load disagree: give every frame a value for each band, and a load as many energies as times",
            Self::ReferenceTimeTooFar => "a time of the reference lies beyond ±10^12 ms: count its times from a nearer start",
            Self::IndexTooShort => "an index buffer is too short: lend as many elements as the library's calls for lengths say, and restore only what was kept over the same reference",
            Self::StateOutOfRange => "the state holds a number out of range: use what opening or the last submission wrote, restore what was kept of it, or open again",
            Self::ClockNotFinite => "the clock reading is not finite: give elapsed milliseconds that are",
            Self::NoFrames => "the window has no frames: give at least one",
            Self::WindowTooLarge => "the window is too large: give at most 1,024 frames of at most 64 bands",
            Self::WindowInvalid => "the window's values are out of range: give every frame an energy and the same bands, at least one, with values that are finite and not negative",
            Self::WindowTimeOutOfRange => "a time or an energy of the window is out of range: give finite times within ±10^12 ms and energies that are neither NaN nor plus infinity",
            Self::WorkTooShort => "a working buffer is too short: lend as many elements as the library's calls for lengths say",
            Self::NameOutOfRange => "the name of the place is out of range: give one from 1 to 8",
            Self::NothingKept => "nothing is kept under this name: use one under which a state was kept in this store",
            Self::SeedZero => "the seed is 0, from which nothing but 0 is drawn: give any other",
            Self::StoreTooShort => "the store is too short: lend at least 848 words",
        }
    }
}

impl fmt::Display for Refusal {
    fn fmt(&self, f: &mut fmt::Formatter<'_>) -> fmt::Result {
        write!(f, "refusal {}: {}", self.number(), self.text())
    }
}

impl Error for Refusal {}

/// Where the library answers what this crate does not know.
pub(crate) fn mismatched() -> ! {
    panic!("libkistovab.a is of another version than this crate: build both from the same files")
}

#[cfg(test)]
mod tests {
    use super::*;

    #[test]
    fn numbers_run_from_1_to_13_and_16_follows() {
        let numbers = Refusal::ALL.map(Refusal::number);
        assert_eq!(numbers.to_vec(), (1..=13).chain([16]).collect::<Vec<_>>());
        for refusal in Refusal::ALL {
            assert_eq!(Refusal::from_number(refusal.number()), Some(refusal));
        }
        for other in [0, 14, 15, 17, 100, 101, 255] {
            assert_eq!(Refusal::from_number(other), None);
        }
    }

    #[test]
    fn numbers_of_places_are_6_14_and_15() {
        assert_eq!(Refusal::OF_PLACES.map(Refusal::number), [6, 14, 15]);
    }

    #[test]
    fn six_is_told_by_the_call() {
        assert_eq!(Refusal::answered(6), Refusal::IndexTooShort);
        for refusal in Refusal::OF_PLACES {
            assert_eq!(Refusal::answered_of_store(refusal.number()), refusal);
        }
        for refusal in Refusal::ALL.into_iter().filter(|one| one.number() != 6) {
            assert_eq!(Refusal::answered(refusal.number()), refusal);
            assert_eq!(Refusal::answered_of_store(refusal.number()), refusal);
        }
    }

    #[test]
    fn every_text_says_what_to_do() {
        for refusal in Refusal::ALL {
            let text = refusal.to_string();
            assert!(text.starts_with(&format!("refusal {}: ", refusal.number())));
            let does = [": give ", ": lend ", ": use ", ": count "];
            assert!(does.iter().any(|word| text.contains(word)), "{text}");
        }
    }

    #[test]
    fn every_text_of_places_says_what_to_do() {
        for refusal in Refusal::OF_PLACES {
            let text = refusal.to_string();
            assert!(text.starts_with(&format!("refusal {}: ", refusal.number())));
            let does = [": give ", ": lend ", ": use "];
            assert!(does.iter().any(|word| text.contains(word)), "{text}");
        }
    }
}
