//! References and windows as sound.rt of engine_replay makes them.

use super::line::{Head, Step};
use crate::recorded::value_at;

pub fn times(start: f64, hop: f64, frames: usize) -> Vec<f64> {
    (0..frames).map(|i| start + i as f64 * hop).collect()
}

pub fn energies(step: &Step) -> Vec<f64> {
    let energy = |frame: usize| {
        if frame < step.loud {
            step.energy - (frame % 5) as f64 * 0.25
        } else {
            step.energy - 100.0
        }
    };
    (0..step.frames).map(energy).collect()
}

pub fn reference(head: &Head) -> Vec<f32> {
    by_band(head.bands, head.frames, |band, frame| {
        sound_at(head.seed, head.period, band, frame)
    })
}

pub fn window(head: &Head, step: &Step, bands: usize) -> Vec<f32> {
    by_band(bands, step.frames, |band, frame| {
        heard_at(head, step, band, frame)
    })
}

fn by_band(bands: usize, frames: usize, value: impl Fn(usize, usize) -> f32) -> Vec<f32> {
    let all = (0..bands).flat_map(|band| (0..frames).map(move |frame| (band, frame)));
    all.map(|(band, frame)| value(band, frame)).collect()
}

fn heard_at(head: &Head, step: &Step, band: usize, frame: usize) -> f32 {
    let other = sound_at(head.seed + 1 + step.noise / 64, 4_096, band, frame);
    if frame < step.since || frame >= step.until {
        return other;
    }
    let part = (step.noise % 64) as f32 / 64.0;
    sound_at(head.seed, head.period, band, step.from + frame) * (1.0 - part) + other * part
}

fn sound_at(seed: u64, period: usize, band: usize, frame: usize) -> f32 {
    let place = frame % period % 4_096;
    let row = band * 8_192;
    let level = value_at(seed, (row + place / 4) as u64);
    level * 0.75 + value_at(seed, (row + 4_096 + place) as u64) * 0.25
}
