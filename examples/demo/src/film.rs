//! The made-up film: a minute of sound in eight bands, with notes that the library draws (loads). Its
//! chorus comes twice.

use kistovab::{workload, FeatureFrame};
use std::sync::LazyLock;

pub const HOP_MS: i64 = 20;
pub const BANDS: usize = 8;

/// A part of the film, up to where the next one begins.
pub struct Section {
    pub name: &'static str,
    pub begin_ms: i64,
    /// What it sounds like. Both choruses have the same; the credits are silent.
    melody: Option<&'static Melody>,
}

pub static SECTIONS: [Section; 7] = [
    section("intro", 0, Some(&INTRO)),
    section("verse 1", 8_000, Some(&VERSE_1)),
    section("1st chorus", FIRST_CHORUS_MS, Some(&CHORUS)),
    section("verse 2", VERSE_2_MS, Some(&VERSE_2)),
    section("2nd chorus", 46_000, Some(&CHORUS)),
    section("outro", 56_000, Some(&OUTRO)),
    section("credits", CREDITS_MS, None),
];
pub const FIRST_CHORUS_MS: i64 = 22_000;
pub const VERSE_2_MS: i64 = 32_000;
pub const CREDITS_MS: i64 = 65_000;
pub const END_MS: i64 = 72_000;

const fn section(name: &'static str, begin_ms: i64, melody: Option<&'static Melody>) -> Section {
    Section {
        name,
        begin_ms,
        melody,
    }
}

impl Section {
    pub fn is_chorus(&self) -> bool {
        self.name.ends_with("chorus")
    }
}

/// The section that plays at a place.
pub fn section_at(place_ms: i64) -> &'static Section {
    let begun = |section: &&Section| section.begin_ms <= place_ms;
    SECTIONS.iter().rev().find(begun).unwrap_or(&SECTIONS[0])
}

/// A copy of the film.
#[derive(Clone, Copy)]
pub struct Film {
    /// Whether somebody speaks over the first chorus, in one band.
    pub voice: bool,
}

const VOICE_BAND: usize = 3;

impl Film {
    /// The film as it is handed to the engine: a frame every 20 ms.
    pub fn reference(&self) -> Vec<FeatureFrame> {
        let frame = |number: i64| FeatureFrame {
            recorded_time_ms: (number * HOP_MS) as f64,
            energy_dbfs: -20.0,
            pcen_mel: self.sound(number * HOP_MS).to_vec(),
        };
        (0..END_MS / HOP_MS).map(frame).collect()
    }

    /// The values of all bands at a place.
    pub fn sound(&self, place_ms: i64) -> [f32; BANDS] {
        let section = section_at(place_ms);
        let since_ms = place_ms - section.begin_ms;
        let spoken = self.voice && section.begin_ms == FIRST_CHORUS_MS;
        std::array::from_fn(|band| match section.melody {
            None => 0.0,
            Some(_) if spoken && band == VOICE_BAND => tone(&VOICE, band, since_ms),
            Some(melody) => tone(melody, band, since_ms),
        })
    }
}

/// A load whose frames are notes.
type Melody = LazyLock<Vec<FeatureFrame>>;

static INTRO: Melody = LazyLock::new(|| notes(1));
static VERSE_1: Melody = LazyLock::new(|| notes(2));
static CHORUS: Melody = LazyLock::new(|| notes(3));
static VERSE_2: Melody = LazyLock::new(|| notes(4));
static OUTRO: Melody = LazyLock::new(|| notes(5));
static VOICE: Melody = LazyLock::new(|| notes(6));

/// How long a note is.
const NOTE_MS: i64 = 120;
/// How long the longest sections last, the verses.
const LONGEST_MS: i64 = 14_000;

/// As many notes as begin in the longest section, and the one that the last of them leads to.
fn notes(number: u64) -> Vec<FeatureFrame> {
    load(number, NOTE_MS, LONGEST_MS / NOTE_MS + 2)
}

/// A band of a melody: a level from 0 up to 4 for each note, and a straight line from one to the
/// next.
fn tone(melody: &[FeatureFrame], band: usize, since_ms: i64) -> f32 {
    let note = (since_ms / NOTE_MS) as usize;
    let share = (since_ms % NOTE_MS) as f32 / NOTE_MS as f32;
    let [from, to] = [note, note + 1].map(|note| melody[note].pcen_mel[band] / 4.0);
    from + (to - from) * share
}

/// The load of a number: eight bands with values from 0 up to 16, the same on every machine. Numbers
/// are spread to seeds that are far apart, since small seeds may draw much alike at first.
pub fn load(number: u64, hop_ms: i64, frames: i64) -> Vec<FeatureFrame> {
    let seed = number.wrapping_mul(0x9E37_79B9_7F4A_7C15);
    workload::frames(seed, hop_ms as f64, frames as usize, BANDS).expect("a load within the limits")
}

#[cfg(test)]
mod tests {
    use super::*;

    const PLAIN: Film = Film { voice: false };
    const SPOKEN: Film = Film { voice: true };

    #[test]
    fn the_chorus_comes_twice() {
        let choruses: Vec<_> = SECTIONS.iter().filter(|s| s.is_chorus()).collect();
        let [first, second] = choruses[..] else {
            panic!("there are two choruses")
        };
        for since_ms in (0..10_000).step_by(7) {
            let (first, second) = (first.begin_ms + since_ms, second.begin_ms + since_ms);
            assert_eq!(PLAIN.sound(first), PLAIN.sound(second));
        }
    }

    #[test]
    fn notes_are_the_frames_of_a_load() {
        for (note, frame) in CHORUS.iter().enumerate().take(83) {
            let sound = PLAIN.sound(FIRST_CHORUS_MS + note as i64 * NOTE_MS);
            assert_eq!(sound.map(|level| 4.0 * level).to_vec(), frame.pcen_mel);
        }
    }

    #[test]
    fn a_voice_is_heard_in_one_band_of_the_first_chorus() {
        let differs = |place_ms: i64| {
            let (plain, spoken) = (PLAIN.sound(place_ms), SPOKEN.sound(place_ms));
            (0..BANDS)
                .filter(|&band| plain[band] != spoken[band])
                .collect::<Vec<_>>()
        };
        assert_eq!(differs(FIRST_CHORUS_MS + 1_007), [VOICE_BAND]);
        assert_eq!(differs(VERSE_2_MS), []);
        assert_eq!(differs(47_007), []);
    }

    #[test]
    fn sections_are_found_by_place() {
        assert_eq!(section_at(0).name, "intro");
        assert_eq!(section_at(VERSE_2_MS - 1).name, "1st chorus");
        assert_eq!(section_at(VERSE_2_MS).name, "verse 2");
        assert_eq!(section_at(END_MS + 1).name, "credits");
    }

    #[test]
    fn every_value_is_in_range() {
        for place_ms in (0..END_MS).step_by(7) {
            assert!(PLAIN
                .sound(place_ms)
                .iter()
                .all(|value| (0.0..=4.0).contains(value)));
        }
    }
}
