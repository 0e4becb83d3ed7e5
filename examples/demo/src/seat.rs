//! What a seat hears of a screening, and which windows it hands in.

use crate::film::{load, Film, BANDS, HOP_MS};
use kistovab::{FeatureFrame, FeatureWindow};
use std::ops::Range;
use std::sync::LazyLock;

/// The film goes on: from a recorded time on, from a place on.
pub struct Reel {
    pub from_ms: i64,
    pub place_ms: i64,
}

/// A window, by the recorded times of its first and its last frame.
#[derive(Clone, Copy, Debug, PartialEq)]
pub struct Handed {
    pub start_ms: i64,
    pub endpoint_ms: i64,
}

/// A film in a hall, and a seat that hears it.
pub struct Screening {
    /// The copy that the seat knows.
    pub known: Film,
    /// The copy that the hall plays.
    pub played: Film,
    pub reels: Vec<Reel>,
    /// When the audience drowns the film.
    pub noise_ms: Range<i64>,
    /// When nothing is recorded.
    pub gap_ms: Range<i64>,
    /// When the sound fails: from then on nothing is heard.
    pub fails_ms: i64,
    /// In the order in which they are handed in.
    pub windows: Vec<Handed>,
}

const NEVER_MS: i64 = i64::MAX;

const PLAIN: Film = Film { voice: false };
const SPOKEN: Film = Film { voice: true };

/// No frame of the seat falls on one of the film's.
const BESIDE_MS: i64 = 7;

/// What the hall adds to the film: a load of 20 s, by recorded time. With another number the film
/// may be heard for a moment in the midst of the noise.
static HALL: LazyLock<Vec<FeatureFrame>> = LazyLock::new(|| load(16, HOP_MS, 20_000 / HOP_MS));

/// It begins in the first chorus. The audience is loud for a while, then the film skips 20 s. In the
/// end it is silent.
pub fn first() -> Screening {
    let gap_ms = 11_000..12_000;
    let mut windows = in_order(0, 1_740, gap_ms.start);
    windows.extend(in_order(gap_ms.end, gap_ms.end + 1_740, 19_740));
    for endpoint_ms in [5_240, 10_500] {
        hand_in_again(&mut windows, endpoint_ms);
    }
    Screening {
        known: PLAIN,
        played: PLAIN,
        reels: vec![
            reel(0, 28_000 + BESIDE_MS),
            reel(gap_ms.end, 60_000 + BESIDE_MS),
        ],
        noise_ms: 7_000..8_600,
        gap_ms,
        fails_ms: NEVER_MS,
        windows,
    }
}

/// The endpoints that a loaded processor hands in, back and forth, before it goes on in order.
const BACK_AND_FORTH_MS: [i64; 20] = [
    2_600, 2_640, 3_100, 3_140, 2_700, 2_960, 3_200, 2_720, 2_760, 3_240, 2_560, 3_280, 3_000,
    2_700, 3_200, 3_240, 2_660, 2_700, 3_280, 3_160,
];

/// It begins at the end of the first chorus. The seat knows a copy in which somebody speaks over that
/// chorus, and the hall plays one in which nobody does: it sounds more like the second. The same
/// seconds of it are handed in again and again before the verse begins.
pub fn second() -> Screening {
    let mut windows: Vec<_> = BACK_AND_FORTH_MS.map(|end| window_to(0, end)).to_vec();
    windows.extend(in_order(0, 3_500, 6_000));
    chorus_before_verse(28_700, windows)
}

/// The same sound as the second screening's, each window once and in order.
pub fn second_in_order() -> Screening {
    chorus_before_verse(28_700, in_order(0, 2_740, 6_000))
}

/// The 1st chorus from a place on, then the verse.
pub fn chorus_before_verse(place_ms: i64, windows: Vec<Handed>) -> Screening {
    Screening {
        known: SPOKEN,
        ..undisturbed(place_ms, windows)
    }
}

/// The film from a place on, on one reel and without noise.
fn undisturbed(place_ms: i64, windows: Vec<Handed>) -> Screening {
    Screening {
        known: PLAIN,
        played: PLAIN,
        reels: vec![reel(0, place_ms + BESIDE_MS)],
        noise_ms: 0..0,
        gap_ms: 0..0,
        fails_ms: NEVER_MS,
        windows,
    }
}

/// The window at whose end the state is kept.
pub const MARK_MS: i64 = 3_240;
/// When the sound fails, the first time.
pub const FAILURE_MS: i64 = 5_000;

/// The third screening, verse 1: up to the mark; on from there until the sound fails and the unit is
/// lost; and from the mark again, whose own window is handed in again first.
pub fn rerun() -> [Screening; 3] {
    let verse = |first_ms, last_ms, fails_ms| Screening {
        fails_ms,
        ..undisturbed(9_000, in_order(0, first_ms, last_ms))
    };
    [
        verse(1_740, MARK_MS, NEVER_MS),
        verse(MARK_MS + HOP_MS, 7_000, FAILURE_MS),
        verse(MARK_MS, 6_000, NEVER_MS),
    ]
}

fn reel(from_ms: i64, place_ms: i64) -> Reel {
    Reel { from_ms, place_ms }
}

/// The frames of 3 s.
const WINDOW_FRAMES: i64 = 150;

/// The newest 3 s up to an endpoint, or less where less was recorded.
fn window_to(recorded_from_ms: i64, endpoint_ms: i64) -> Handed {
    let whole_ms = endpoint_ms - (WINDOW_FRAMES - 1) * HOP_MS;
    Handed {
        start_ms: whole_ms.max(recorded_from_ms + HOP_MS),
        endpoint_ms,
    }
}

/// A window every 250 ms, up to the last frame before that time.
pub fn in_order(recorded_from_ms: i64, first_ms: i64, last_ms: i64) -> Vec<Handed> {
    let quarters = 1..=(last_ms - recorded_from_ms + HOP_MS) / 250;
    let endpoints = quarters.map(|quarter| recorded_from_ms + quarter * 250 / HOP_MS * HOP_MS);
    let due = endpoints.filter(|endpoint| (first_ms..=last_ms).contains(endpoint));
    due.map(|endpoint| window_to(recorded_from_ms, endpoint))
        .collect()
}

/// Puts a window that ends 40 ms later behind the one with that endpoint.
fn hand_in_again(windows: &mut Vec<Handed>, endpoint_ms: i64) {
    let at = windows
        .iter()
        .position(|window| window.endpoint_ms == endpoint_ms);
    let at = at.expect("a window with that endpoint");
    let again = Handed {
        start_ms: windows[at].start_ms + 2 * HOP_MS,
        endpoint_ms: endpoint_ms + 2 * HOP_MS,
    };
    windows.insert(at + 1, again);
}

impl Screening {
    /// The place on the film that plays at a recorded time.
    pub fn place_at(&self, recorded_ms: i64) -> i64 {
        let begun = |reel: &&Reel| reel.from_ms <= recorded_ms;
        let reel = self
            .reels
            .iter()
            .rev()
            .find(begun)
            .unwrap_or(&self.reels[0]);
        reel.place_ms + recorded_ms - reel.from_ms
    }

    pub fn window(&self, handed: Handed) -> FeatureWindow {
        let times = (handed.start_ms..=handed.endpoint_ms).step_by(HOP_MS as usize);
        let frames = times.map(|recorded_ms| self.frame(recorded_ms)).collect();
        FeatureWindow::new(frames).expect("frames without fault")
    }

    fn frame(&self, recorded_ms: i64) -> FeatureFrame {
        let film = self.played.sound(self.place_at(recorded_ms));
        let silent = recorded_ms >= self.fails_ms || film == [0.0; BANDS];
        let (share, rustle, energy_dbfs) = if self.noise_ms.contains(&recorded_ms) {
            (0.05, 4.0, -15.0)
        } else if silent {
            (0.0, 0.02, -90.0)
        } else {
            (1.0, 1.2, -20.0)
        };
        let hall = &HALL[(recorded_ms / HOP_MS) as usize].pcen_mel;
        let heard = |band| share * film[band] + rustle * hall[band] / 16.0;
        FeatureFrame {
            recorded_time_ms: recorded_ms as f64,
            energy_dbfs,
            pcen_mel: (0..BANDS).map(heard).collect(),
        }
    }
}

#[cfg(test)]
mod tests {
    use super::*;

    #[test]
    fn windows_come_every_quarter_of_a_second() {
        let ends: Vec<_> = in_order(0, 1_740, 2_500)
            .iter()
            .map(|w| w.endpoint_ms)
            .collect();
        assert_eq!(ends, [1_740, 2_000, 2_240, 2_500]);
        let after = in_order(12_000, 13_740, 14_000);
        assert_eq!(
            after[0],
            Handed {
                start_ms: 12_020,
                endpoint_ms: 13_740
            }
        );
        assert_eq!(after.len(), 2);
    }

    #[test]
    fn a_window_holds_at_most_three_seconds() {
        assert_eq!(
            window_to(0, 3_240),
            Handed {
                start_ms: 260,
                endpoint_ms: 3_240
            }
        );
        let frames = first().window(window_to(0, 3_240)).frames().len();
        assert_eq!(frames, 150);
    }

    #[test]
    fn the_film_skips_twenty_seconds() {
        let screening = first();
        let offset = |recorded_ms| screening.place_at(recorded_ms) - recorded_ms;
        assert_eq!(offset(12_000) - offset(11_000), 20_000);
    }

    #[test]
    fn nothing_is_heard_once_the_sound_fails() {
        let [_, failing, again] = rerun();
        let last_energies = |screening: &Screening| {
            let window = screening.window(window_to(0, FAILURE_MS));
            let frames = window.frames();
            [148, 149].map(|number| frames[number].energy_dbfs)
        };
        assert_eq!(last_energies(&failing), [-20.0, -90.0]);
        assert_eq!(last_energies(&again), [-20.0, -20.0]);
    }

    #[test]
    fn no_window_reaches_into_the_gap() {
        let screening = first();
        for window in &screening.windows {
            let gap = &screening.gap_ms;
            assert!(window.endpoint_ms <= gap.start || window.start_ms > gap.end);
        }
    }
}
