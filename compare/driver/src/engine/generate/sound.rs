//! Sound that references are made of. Values lie band after band. Only arithmetic that IEEE 754
//! fixes is used, so that every machine makes the same.

use crate::random::Random;

#[derive(Clone, Copy, Debug)]
pub enum Sound {
    /// Levels that come and go slowly, with some attacks.
    Smooth,
    /// Smooth, with one part that comes back, a little changed each time.
    Choruses,
    /// Loud and soft by chance.
    Noise,
    /// Noise that repeats every so many frames, so that places score the same.
    Repeats(usize),
    /// All the same: centred to zeros or nearly so.
    Flat,
    Silence,
    /// Any finite f32 that is not negative, subnormal ones and the largest too.
    Extreme,
    /// One or two loud frames now and then, of one level.
    Pulses,
}

pub fn sound(random: &mut Random, kind: Sound, bands: usize, frames: usize) -> Vec<f32> {
    let mut values = Vec::with_capacity(bands * frames);
    for _ in 0..bands {
        match kind {
            Sound::Smooth | Sound::Choruses => smooth(random, frames, &mut values),
            Sound::Noise => values.extend((0..frames).map(|_| noise(random))),
            Sound::Repeats(period) => repeats(random, period, frames, &mut values),
            Sound::Flat => values.extend((0..frames).map(|_| 3.25)),
            Sound::Silence => values.extend((0..frames).map(|_| 0.0)),
            Sound::Extreme => values.extend((0..frames).map(|_| extreme(random))),
            Sound::Pulses => pulses(random, frames, &mut values),
        }
    }
    if let Sound::Choruses = kind {
        choruses(random, bands, frames, &mut values);
    }
    values
}

pub fn noise(random: &mut Random) -> f32 {
    let x = random.unit() as f32;
    if random.one_in(4) {
        x * 40.0
    } else {
        x * x
    }
}

/// Whole searches look at averages of four frames first, so that only sound that lasts some frames
/// is found wherever it begins.
fn smooth(random: &mut Random, frames: usize, values: &mut Vec<f32>) {
    let mut level = random.unit() * 4.0;
    for _ in 0..frames {
        if random.one_in(12) {
            level = random.unit() * 16.0;
        }
        level = level * 0.9 + random.unit() * 0.5;
        values.push(level as f32);
    }
}

fn repeats(random: &mut Random, period: usize, frames: usize, values: &mut Vec<f32>) {
    let from = values.len();
    for frame in 0..frames {
        let value = match frame.checked_sub(period) {
            Some(again) => values[from + again],
            None => noise(random),
        };
        values.push(value);
    }
}

fn extreme(random: &mut Random) -> f32 {
    match random.below(12) {
        0 => f32::MAX,
        1 => f32::from_bits(1 + random.below(8_000_000) as u32),
        2 => 0.0,
        3 => -0.0,
        _ => f32::from_bits((random.bits() % 0x7f80_0000) as u32),
    }
}

fn pulses(random: &mut Random, frames: usize, values: &mut Vec<f32>) {
    let from = values.len();
    values.resize(from + frames, 0.0);
    let mut frame = random.below(6);
    while frame < frames {
        for at in frame..frames.min(frame + 1 + random.below(2)) {
            values[from + at] = 3.0;
        }
        frame += 4 + random.below(14);
    }
}

/// Copies a part to other places, each time somewhat changed.
fn choruses(random: &mut Random, bands: usize, frames: usize, values: &mut [f32]) {
    let length = frames / (2 + random.below(3));
    let from = random.below(frames - length + 1);
    let change = random.one_of(&[0.0f32, 0.1, 0.4, 0.8]);
    for _ in 0..1 + random.below(2) {
        let to = random.below(frames - length + 1);
        for band in 0..bands {
            let row = band * frames;
            for i in 0..length {
                let old = values[row + from + i];
                let new = noise(random);
                values[row + to + i] = old * (1.0 - change) + new * change;
            }
        }
    }
}
