//! Openings with one fault, with two, and at each limit.

use super::{Tally, MOST};
use crate::engine::generate::scene::{reference, regular};
use crate::engine::generate::sound::Sound;
use crate::engine::ours::{self, Index, OLD_WORD};
use crate::engine::session::{Opening, Settings};
use crate::engine::{reading, words};
use crate::random::Random;
use crate::sessions::session::Soundtrack;
use sonalign::running::Kept;
use sonalign::types::Configuration;

/// A fault of an opening: the number it is refused with, and how it is brought about.
struct OpeningFault {
    number: u32,
    name: &'static str,
    make: fn(&mut Opening),
}

pub fn openings(tally: &mut Tally) {
    let faults = opening_faults();
    for fault in &faults {
        let mut opening = sound_opening();
        (fault.make)(&mut opening);
        attempt_opening(tally, fault.name, &opening, fault.number);
    }
    for (at, first) in faults.iter().enumerate() {
        for second in &faults[at + 1..] {
            if first.number == second.number {
                continue;
            }
            let mut opening = sound_opening();
            (first.make)(&mut opening);
            (second.make)(&mut opening);
            let name = format!("{} and {}", first.name, second.name);
            tally.pairs += 1;
            attempt_opening(tally, &name, &opening, first.number.min(second.number));
        }
    }
    for (name, make) in opening_limits() {
        let mut opening = sound_opening();
        make(&mut opening);
        attempt_opening(tally, name, &opening, 0);
    }
}

pub fn sound_opening() -> Opening {
    let mut random = Random::new(1);
    Opening {
        configuration: Configuration::default(),
        hop: 250.0,
        reference: reference(&mut random, Sound::Noise, 250.0, 0.0, 2, 30),
        short: None,
    }
}

/// Calls with buffers exactly as long as needed, or one short.
fn attempt_opening(tally: &mut Tally, name: &str, opening: &Opening, expected: u32) {
    let needed = needed_index(opening);
    let mut lent = needed.map(|length| length.min(MOST));
    if let Some(short) = opening.short {
        lent[short] = lent[short].saturating_sub(1);
    }
    let read = reading::opening_refusal(opening, lent).unwrap_or(0);
    if read != expected {
        tally.differs(&format!("{name}: the reading says {read}, not {expected}"));
    }
    let came = called_opening(opening, lent);
    tally.note(&format!("opening, {name}"), expected, came);
}

pub fn needed_index(opening: &Opening) -> [usize; 4] {
    let (frames, bands) = (opening.reference.times.len(), opening.reference.bands);
    let averaged = frames / 4;
    [frames, averaged, frames + 1, averaged + 1].map(|rows| rows.saturating_mul(bands))
}

fn called_opening(opening: &Opening, lent: [usize; 4]) -> Result<u32, String> {
    let mut index = Index::new(lent);
    let mut state = vec![OLD_WORD; words::STATE];
    let code = ours::open(opening, &mut index, &mut state);
    let written = !index.is(&Index::new(lent));
    let set = state.iter().any(|&word| word != OLD_WORD);
    if code != 0 && (written || set) {
        return Err(format!("refused {code} and written"));
    }
    if code == 0 {
        let indexed = reading::is_accepted(opening);
        let fresh = words::state(&Settings::of(opening, indexed), &Kept::FRESH);
        if state != fresh || (written && !indexed) {
            return Err("not the state of a fresh engine".into());
        }
    }
    Ok(code)
}

fn opening_faults() -> Vec<OpeningFault> {
    let fault = |number, name, make| OpeningFault { number, name, make };
    vec![
        fault(1, "readiness 0", |o| {
            o.configuration.minimum_readiness_duration_ms = 0.0
        }),
        fault(1, "readiness -0", |o| {
            o.configuration.minimum_readiness_duration_ms = -0.0
        }),
        fault(1, "readiness below 0", |o| {
            o.configuration.minimum_readiness_duration_ms = -5e-324
        }),
        fault(1, "readiness infinite", |o| {
            o.configuration.minimum_readiness_duration_ms = f64::INFINITY
        }),
        fault(1, "readiness NaN", |o| {
            o.configuration.minimum_readiness_duration_ms = f64::NAN
        }),
        fault(1, "tracking 0", |o| {
            o.configuration.tracking_query_duration_ms = 0.0
        }),
        fault(1, "tracking -0", |o| {
            o.configuration.tracking_query_duration_ms = -0.0
        }),
        fault(1, "tracking infinite", |o| {
            o.configuration.tracking_query_duration_ms = f64::INFINITY
        }),
        fault(1, "tracking NaN", |o| {
            o.configuration.tracking_query_duration_ms = f64::NAN
        }),
        fault(1, "active energy NaN", |o| {
            o.configuration.minimum_active_frame_energy_dbfs = f64::NAN
        }),
        fault(1, "active energy infinite", |o| {
            o.configuration.minimum_active_frame_energy_dbfs = f64::INFINITY
        }),
        fault(1, "active energy -infinite", |o| {
            o.configuration.minimum_active_frame_energy_dbfs = f64::NEG_INFINITY
        }),
        fault(1, "average energy NaN", |o| {
            o.configuration.minimum_average_energy_dbfs = f64::NAN
        }),
        fault(1, "average energy infinite", |o| {
            o.configuration.minimum_average_energy_dbfs = f64::INFINITY
        }),
        fault(1, "average energy -infinite", |o| {
            o.configuration.minimum_average_energy_dbfs = f64::NEG_INFINITY
        }),
        fault(1, "fraction below 0", |o| {
            o.configuration.minimum_active_frame_fraction = -5e-324
        }),
        fault(1, "fraction above 1", |o| {
            o.configuration.minimum_active_frame_fraction = 1.0_f64.next_up()
        }),
        fault(1, "fraction NaN", |o| {
            o.configuration.minimum_active_frame_fraction = f64::NAN
        }),
        fault(1, "fraction infinite", |o| {
            o.configuration.minimum_active_frame_fraction = f64::INFINITY
        }),
        fault(2, "hop below 1", |o| o.hop = 1.0_f64.next_down()),
        fault(2, "hop above 1,000", |o| o.hop = 1_000.0_f64.next_up()),
        fault(2, "hop NaN", |o| o.hop = f64::NAN),
        fault(2, "hop 0", |o| o.hop = 0.0),
        fault(2, "hop -20", |o| o.hop = -20.0),
        fault(2, "hop infinite", |o| o.hop = f64::INFINITY),
        fault(3, "65,536 frames", |o| resize(&mut o.reference, 65_536, 1)),
        fault(3, "65 bands", |o| resize(&mut o.reference, 30, 65)),
        fault(3, "bands without end", |o| o.reference.bands = usize::MAX),
        fault(3, "bands whose product wraps", |o| {
            o.reference.bands = usize::MAX / 30 + 1
        }),
        fault(4, "a value too few", |o| {
            o.reference.values.pop();
        }),
        fault(4, "a value too many", |o| o.reference.values.push(1.0)),
        fault(4, "no values", |o| o.reference.values.clear()),
        fault(5, "a time past 10^12", |o| {
            o.reference.times[1] = 1e12_f64.next_up()
        }),
        fault(5, "a time before -10^12", |o| {
            o.reference.times[0] = (-1e12_f64).next_down()
        }),
        fault(5, "the last time far", |o| {
            if let Some(last) = o.reference.times.last_mut() {
                *last = f64::MAX;
            }
        }),
        fault(5, "a far time beside a NaN", |o| {
            o.reference.times[0] = f64::NAN;
            o.reference.times[2] = -2e12;
        }),
        fault(5, "a far time beside infinities", |o| {
            o.reference.times[1] = f64::INFINITY;
            o.reference.times[3] = 2e12;
            o.reference.times[4] = f64::NEG_INFINITY;
        }),
        fault(6, "values one short", |o| o.short = Some(0)),
        fault(6, "averages one short", |o| o.short = Some(1)),
        fault(6, "energies one short", |o| o.short = Some(2)),
        fault(6, "energies of averages one short", |o| o.short = Some(3)),
    ]
}

/// A reference of so many frames and bands, regular and valid.
fn resize(reference: &mut Soundtrack, frames: usize, bands: usize) {
    reference.times = regular(0.0, 250.0, frames);
    reference.bands = bands;
    reference.values = vec![1.0; frames * bands];
}

type OpeningLimit = (&'static str, fn(&mut Opening));

/// What is not refused, though it is near.
fn opening_limits() -> Vec<OpeningLimit> {
    vec![
        ("least durations", |o| {
            o.configuration.minimum_readiness_duration_ms = 5e-324;
            o.configuration.tracking_query_duration_ms = 5e-324;
        }),
        ("longest durations", |o| {
            o.configuration.minimum_readiness_duration_ms = f64::MAX;
            o.configuration.tracking_query_duration_ms = f64::MAX;
        }),
        ("energies at their ends", |o| {
            o.configuration.minimum_active_frame_energy_dbfs = -f64::MAX;
            o.configuration.minimum_average_energy_dbfs = f64::MAX;
        }),
        ("fraction 0", |o| {
            o.configuration.minimum_active_frame_fraction = 0.0
        }),
        ("fraction -0", |o| {
            o.configuration.minimum_active_frame_fraction = -0.0
        }),
        ("fraction 1", |o| {
            o.configuration.minimum_active_frame_fraction = 1.0
        }),
        ("hop 1", |o| o.hop = 1.0),
        ("hop 1,000", |o| o.hop = 1_000.0),
        ("65,535 frames", |o| resize(&mut o.reference, 65_535, 1)),
        ("64 bands", |o| resize(&mut o.reference, 30, 64)),
        ("no bands", |o| resize(&mut o.reference, 30, 0)),
        ("no frames, 5 bands", |o| resize(&mut o.reference, 0, 5)),
        ("nothing", |o| resize(&mut o.reference, 0, 0)),
        ("one frame", |o| resize(&mut o.reference, 1, 3)),
        ("two frames", |o| resize(&mut o.reference, 2, 3)),
        ("three frames", |o| resize(&mut o.reference, 3, 3)),
        ("a first time of 10^12", |o| {
            resize(&mut o.reference, 1, 1);
            o.reference.times[0] = 1e12;
        }),
        ("times up to 10^12", |o| {
            o.reference.times = regular(1e12 - 29.0 * 250.0, 250.0, 30);
        }),
        ("times from -10^12", |o| {
            o.reference.times = regular(-1e12, 250.0, 30);
        }),
        ("a time that is NaN", |o| o.reference.times[3] = f64::NAN),
        ("a time that is infinite", |o| {
            o.reference.times[0] = f64::INFINITY
        }),
        ("a time that is -infinite", |o| {
            o.reference.times[29] = f64::NEG_INFINITY
        }),
        ("a value below 0", |o| o.reference.values[4] = -1e-45),
        ("a value of -0", |o| o.reference.values[4] = -0.0),
        ("a value that is NaN", |o| o.reference.values[59] = f32::NAN),
        ("a value that is infinite", |o| {
            o.reference.values[0] = f32::INFINITY
        }),
        ("values at their ends", |o| {
            o.reference.values[0] = f32::MAX;
            o.reference.values[1] = 1e-45;
        }),
    ]
}
