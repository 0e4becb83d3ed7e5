//! Steps of a session by chance: mostly listening on, with all that can come between.

use super::scene::{fewest, Scene};
use super::sound::{sound, Sound};
use crate::engine::session::Lent;
use crate::sessions::session::Window;
use crate::timeline::reach_step;

/// So many steps.
pub fn steps(scene: &mut Scene, count: usize) {
    for _ in 0..count {
        step(scene);
    }
}

fn step(scene: &mut Scene) {
    match scene.random.below(100) {
        0..=49 => listen(scene),
        50..=56 => again(scene),
        57..=60 => other_conditions(scene),
        61..=64 => elsewhere(scene),
        65..=68 => partly(scene),
        69..=71 => unheard(scene),
        72..=74 => quiet(scene),
        75..=79 => odd_window(scene),
        80..=82 => jump_back(scene),
        83..=85 => jump_on(scene),
        86..=94 => refused(scene),
        _ => drift(scene),
    }
}

const ADVANCES: [f64; 16] = [
    90.0, 100.0, 250.0, 499.0, 500.0, 500.0, 501.0, 750.0, 1_000.0, 1_000.0, 1_500.0, 1_501.0,
    2_000.0, 2_000.0, 2_500.0, 2_501.0,
];

fn advance(scene: &mut Scene) {
    // Beyond the window's length a listener would jump.
    let longest = (scene.frames + 1) as f64 * scene.hop();
    let ms = match scene.random.below(6) {
        0 => scene.hop() * (1 + scene.random.below(8)) as f64,
        1 => scene.random.unit() * 1_200.0,
        2 => 100.0 + scene.random.below(40) as f64 * 10.0,
        _ => scene.random.one_of(&ADVANCES),
    };
    scene.after(ms.min(longest));
}

/// Where the reference ends, a listener mostly begins it anew.
fn listen(scene: &mut Scene) {
    advance(scene);
    if scene.is_past_the_end() && !scene.random.one_in(4) {
        let room = scene
            .opening
            .reference
            .times
            .len()
            .saturating_sub(scene.frames);
        let place = scene.random.below(room / 2 + 1) as f64;
        scene.go_to(place);
    }
    scene.hear();
}

fn again(scene: &mut Scene) {
    let ms = scene
        .random
        .one_of(&[0.0, 1.0, 20.0, 45.0, 89.0, 89.999, 90.0]);
    scene.now = scene.last();
    scene.after(ms);
    scene.hear();
}

fn other_conditions(scene: &mut Scene) {
    scene.dirt = scene.random.one_of(&[0.0, 0.0, 0.05, 0.2, 0.5, 1.0]);
    scene.gain = scene.random.one_of(&[1.0, 1.0, 0.5, 2.0, 0.1]);
    listen(scene);
}

fn elsewhere(scene: &mut Scene) {
    let count = scene.opening.reference.times.len().max(1);
    let hop = scene.hop();
    advance(scene);
    match scene.random.below(8) {
        0 => scene.offset += scene.random.one_of(&[20.0, 79.0, 80.0, 81.0, 100.0, 101.0]),
        1 => scene.offset -= scene.random.one_of(&[20.0, 79.0, 80.0, 81.0, 100.0, 101.0]),
        2 => scene.offset += hop,
        3 => scene.offset -= hop,
        4 => scene.go_to(0.0),
        5 => scene.go_to(-3.0),
        _ => {
            let place = scene.random.below(count) as f64;
            scene.go_to(place);
        }
    }
    scene.hear();
}

fn partly(scene: &mut Scene) {
    advance(scene);
    match scene.random.below(3) {
        0 => scene.half(),
        1 => scene.late(),
        _ => {
            let from = scene.random.below(scene.frames);
            let window = scene.changed(0, from);
            scene.submit("first part not heard", window);
        }
    }
}

fn unheard(scene: &mut Scene) {
    advance(scene);
    let kind = scene.random.one_of(&[
        Sound::Noise,
        Sound::Noise,
        Sound::Smooth,
        Sound::Flat,
        Sound::Silence,
        Sound::Extreme,
    ]);
    let window = scene.strange(scene.frames, kind);
    scene.submit("other sound", window);
}

/// Energies at either side of the thresholds.
fn quiet(scene: &mut Scene) {
    advance(scene);
    let configuration = scene.opening.configuration;
    let active = configuration.minimum_active_frame_energy_dbfs;
    let average = configuration.minimum_average_energy_dbfs;
    let mut window = scene.heard(scene.frames);
    let frames = scene.frames;
    match scene.random.below(6) {
        0 => window.energies.fill(average),
        1 => window.energies.fill(f64::NEG_INFINITY),
        2 => {
            // As many active frames as are asked for, or one fewer.
            let asked = configuration.minimum_active_frame_fraction * frames as f64;
            let count = (asked.ceil() as usize).saturating_sub(scene.random.below(2));
            let low = active.next_down().min(-3_000.0);
            window.energies.fill(low);
            window.energies[..count.min(frames)].fill(active.max(average + 60.0));
        }
        3 => window.energies.fill(5_000.0),
        4 => {
            window.energies.fill(average - 60.0);
            window.energies[0] = average + 10.0 * scene.random.unit() + 15.0;
        }
        _ => window.energies.fill(active),
    }
    scene.submit("energies at a threshold", window);
}

/// Windows that are not refused, but hardly ready.
fn odd_window(scene: &mut Scene) {
    advance(scene);
    let hop = scene.hop();
    let window = match scene.random.below(9) {
        0 => scene.heard(1),
        1 => scene.heard(2),
        2 => scene.heard(fewest(hop) - 1),
        3 => scene.heard(fewest(hop)),
        4 => {
            let configuration = scene.opening.configuration;
            let asked = scene.random.one_of(&[
                configuration.minimum_readiness_duration_ms,
                configuration.tracking_query_duration_ms - hop,
            ]);
            let frames = (asked / hop).round().clamp(0.0, 1_023.0) as usize + 1;
            let shorter = scene.random.below(2);
            scene.heard(frames.saturating_sub(shorter).max(1))
        }
        5 => other_bands(scene),
        6 => backwards(scene),
        _ => off_its_places(scene),
    };
    scene.submit("an odd window", window);
}

fn other_bands(scene: &mut Scene) -> Window {
    let mut window = scene.heard(scene.frames);
    window.bands = window.bands % 64 + 1;
    window.values = sound(&mut scene.random, Sound::Noise, window.bands, scene.frames);
    window
}

fn backwards(scene: &mut Scene) -> Window {
    let mut window = scene.heard(scene.frames);
    let (a, b) = (
        scene.random.below(scene.frames),
        scene.random.below(scene.frames),
    );
    window.times.swap(a, b);
    window
}

/// One time, or all of them, at either side of the tolerance.
fn off_its_places(scene: &mut Scene) -> Window {
    let hop = scene.hop();
    let mut window = scene.heard(scene.frames);
    let at = scene.random.below(scene.frames);
    if scene.random.one_in(4) {
        // Which reason comes first then shows.
        window.energies.fill(-300.0);
    }
    match scene.random.below(8) {
        0 => window.times[at] += hop * 0.05,
        1 => window.times[at] += hop * 0.049_999,
        2 => window.times[at] -= hop * 0.024,
        5 => reach_step(&mut window.times, hop, at, true),
        6 if at > 0 => {
            // A place off by the tolerance behind steps that are within it.
            window.times[at - 1] += hop * 0.025;
            for time in &mut window.times[at..] {
                *time += hop * 0.05;
            }
        }
        3 => {
            for (i, time) in window.times.iter_mut().enumerate() {
                *time += i as f64 * hop * 0.001;
            }
        }
        _ => {
            for time in &mut window.times {
                *time += (scene.random.unit() - 0.5) * hop * 0.045;
            }
        }
    }
    window
}

fn jump_back(scene: &mut Scene) {
    let ms = scene
        .random
        .one_of(&[0.001, 1.0, 10.0, 500.0, 3_000.0, 10_000.0]);
    scene.now = scene.last() - ms;
    scene.hear();
}

/// Two hops past the last endpoint are not a jump yet.
fn jump_on(scene: &mut Scene) {
    let hop = scene.hop();
    let ms = scene
        .random
        .one_of(&[0.0, 0.0, 0.001, 1.0, 500.0, 60_000.0]);
    let frames = match scene.random.below(3) {
        0 => 3,
        _ => scene.frames,
    };
    scene.now = scene.last() + 2.0 * hop + (frames - 1) as f64 * hop + ms;
    if scene.random.one_in(2) {
        scene.offset -= ms;
    }
    let window = scene.heard(frames);
    scene.submit("two hops on or more", window);
}

fn drift(scene: &mut Scene) {
    scene.offset += (scene.random.unit() - 0.5) * scene.hop();
    listen(scene);
}

// ---- what is refused

pub fn refused(scene: &mut Scene) {
    let mut window = scene.heard(scene.frames);
    let frames = scene.frames;
    let at = scene.random.below(frames);
    let value = scene.random.below(window.values.len().max(1));
    let mut clock = 1.0;
    let mut lent = Lent::Enough;
    match scene.random.below(16) {
        0 => lent = Lent::ShortIndex(scene.random.below(4)),
        1 => lent = Lent::SpoiltState,
        2 => {
            clock = scene
                .random
                .one_of(&[f64::NAN, f64::INFINITY, f64::NEG_INFINITY])
        }
        3 => window = no_frames(window.bands),
        4 => window = long(scene),
        5 => window.bands = 65,
        6 => window.bands = 0,
        7 => {
            window.energies.pop();
        }
        8 => {
            window.values.pop();
        }
        9 if !window.values.is_empty() => {
            let bad = [f32::NAN, f32::INFINITY, -1e-45, -3.0];
            window.values[value] = scene.random.one_of(&bad);
        }
        10 => {
            let bad = [f64::NAN, f64::INFINITY, 1e12_f64.next_up(), -2e12];
            window.times[at] = scene.random.one_of(&bad);
        }
        11 => window.energies[at] = scene.random.one_of(&[f64::NAN, f64::INFINITY]),
        12 => lent = Lent::ShortWork(0),
        13 => lent = Lent::ShortWork(1),
        _ => lent = Lent::ShortIndex(scene.random.below(4)),
    }
    scene.refused("to be refused", window, clock, lent);
}

fn no_frames(bands: usize) -> Window {
    Window {
        bands,
        times: vec![],
        energies: vec![],
        values: vec![],
    }
}

fn long(scene: &mut Scene) -> Window {
    scene.heard(1_025)
}
