//! Sound that the tests hear: tones that rise, so that no two places of it are alike.

#![allow(dead_code)]

use kistovab::{Configuration, Engine, FeatureFrame, FeatureWindow};

pub const HOP_MS: f64 = 20.0;

/// The reference's frame of that number, heard at some time.
pub fn frame(number: usize, recorded_time_ms: f64) -> FeatureFrame {
    let t = number as f32;
    FeatureFrame {
        recorded_time_ms,
        energy_dbfs: -20.0,
        pcen_mel: vec![1.0 + (t * t * 2e-4).sin(), 1.0 + (t * t * 3e-4).cos()],
    }
}

pub fn reference() -> Vec<FeatureFrame> {
    (0..900).map(|i| frame(i, i as f64 * HOP_MS)).collect()
}

pub fn engine() -> Engine {
    Engine::new(&reference(), HOP_MS, Configuration::default())
}

/// 150 frames from that one of the reference on, heard from `begin_ms` on.
pub fn heard(number: usize, begin_ms: f64) -> Vec<FeatureFrame> {
    (0..150)
        .map(|i| frame(number + i, begin_ms + i as f64 * HOP_MS))
        .collect()
}

pub fn window(number: usize, begin_ms: f64) -> FeatureWindow {
    FeatureWindow::new(heard(number, begin_ms)).expect("frames without fault")
}

/// The window that is heard after so many seconds, where frame 200 is heard first.
pub fn after(seconds: f64) -> FeatureWindow {
    window(200 + (seconds * 50.0) as usize, seconds * 1_000.0)
}

/// The same times, with sound that is nowhere in the reference.
pub fn missed(seconds: f64) -> FeatureWindow {
    let mut frames = heard(0, seconds * 1_000.0);
    for (at, frame) in frames.iter_mut().enumerate() {
        frame.pcen_mel = vec![(at * at % 7) as f32, (at * at % 11) as f32];
    }
    FeatureWindow::new(frames).expect("frames without fault")
}

/// An engine that has locked, at the window that is heard after a second.
pub fn locked() -> Engine {
    let mut engine = engine();
    for seconds in [0.0, 0.5, 1.0] {
        engine.process(&after(seconds), seconds * 1_000.0);
    }
    engine
}
