//! Families of sessions: those by chance, and those for corners that chance does not reach.

use super::scene::{fewest, lasting, radius, ready, reference, regular, Scene};
use super::sound::Sound;
use super::steps::{refused, steps};
use crate::engine::session::Session;
use crate::random::Random;
use crate::sessions::session::Soundtrack;
use sonalign::types::Configuration;

const HOPS: [f64; 22] = [
    1.0,
    2.0,
    2.5,
    10.0,
    16.0,
    20.0,
    20.0,
    20.0,
    23.22,
    23.22,
    40.0,
    50.0,
    100.0,
    125.0,
    250.0,
    250.0,
    375.0,
    500.0,
    500.000_000_000_000_06,
    501.0,
    999.5,
    1_000.0,
];

/// Those at which sound is mostly cut into frames.
const USUAL_HOPS: [f64; 8] = [10.0, 16.0, 20.0, 20.0, 23.22, 25.0, 32.0, 50.0];

const MOST_FRAMES: usize = 1_024;

pub fn general(mut random: Random) -> Session {
    let hop = match random.below(16) {
        0 | 1 => 1.0 + random.unit() * 999.0,
        2..=8 => random.one_of(&USUAL_HOPS),
        _ => random.one_of(&HOPS),
    };
    let starts = [0.0, -0.0, 5_000.0, -80_000.0, 1e6, 123_456.75];
    let (start, begin) = (random.one_of(&starts), random.one_of(&starts));
    by_chance(random, hop, start, begin).done("general")
}

/// Times at the ends of what is accepted.
pub fn far(mut random: Random) -> Session {
    let hop = random.one_of(&[20.0, 250.0, 23.22, 100.0, 1_000.0]);
    let ends = [1e12 - 400_000.0, -1e12, -1e12 + 1_000.0, 1e12 - 1e6, 0.0];
    let (start, begin) = (random.one_of(&ends), random.one_of(&ends[..4]));
    let mut scene = by_chance(random, hop, start, begin);
    for _ in 0..3 {
        scene.dirt = 0.0;
        scene.after(1_000.0).hear();
    }
    scene.done("far")
}

fn by_chance(mut random: Random, hop: f64, start: f64, begin: f64) -> Scene {
    let (configuration, least) = configuration(&mut random, hop);
    let longer = random.one_of(&[8, 24, 80]);
    let frames = (least + random.below(longer)).min(MOST_FRAMES);
    let bands = random.one_of(&[1, 2, 2, 3, 4, 6, 8]);
    let centred = frames.saturating_sub(2 * radius(hop));
    let long = lasting(25_000.0, hop).min(1_500);
    let more = random.one_of(&[0, 1, 5, 40, 200, long, long, long, 2 * long]);
    let count = centred + more + random.below(60);
    let kind = random.one_of(&[
        Sound::Smooth,
        Sound::Smooth,
        Sound::Choruses,
        Sound::Choruses,
        Sound::Noise,
    ]);
    let film = reference(&mut random, kind, hop, start, bands, count);
    let place = random.below(count.saturating_sub(frames).max(1)) as f64;
    let mut scene = Scene::new(random, hop, configuration, film, frames, begin, place);
    scene.dirt = scene.random.one_of(&[0.0, 0.0, 0.05, 0.2]);
    scene.hear();
    let count = 16 + scene.random.below(30);
    steps(&mut scene, count);
    scene
}

/// With the frames that a window needs to be ready and searched.
fn configuration(random: &mut Random, hop: f64) -> (Configuration, usize) {
    let default = Configuration::default();
    let least = fewest(hop).max(lasting(2_500.0, hop));
    if random.one_in(2) && least <= MOST_FRAMES {
        return (default, least);
    }
    let frames = fewest(hop) + random.below(40);
    let duration = (frames - 1) as f64 * hop;
    let configuration = Configuration {
        minimum_readiness_duration_ms: duration * random.one_of(&[1.0, 0.9, 0.5]),
        tracking_query_duration_ms: duration * random.one_of(&[1.0, 0.7, 2.0]),
        minimum_active_frame_energy_dbfs: random.one_of(&[-70.0, -40.0, -24.0]),
        minimum_average_energy_dbfs: random.one_of(&[-62.0, -30.0, -100.0]),
        minimum_active_frame_fraction: random.one_of(&[0.35, 0.0, 0.5, 0.125]),
    };
    (configuration, frames)
}

/// References that are hardly longer than the window, or shorter.
pub fn tiny(mut random: Random) -> Session {
    let hop = random.one_of(&[1_000.0, 500.0, 250.0, 501.0, 100.0]);
    let frames = fewest(hop) + random.below(6);
    let count = random.one_of(&[2, 3, 4, 7, 16, 17, 18, 19, 20, 21, 22, 24, 26]);
    let kind = random.one_of(&[Sound::Noise, Sound::Smooth, Sound::Pulses]);
    let film = reference(&mut random, kind, hop, 0.0, 1, count);
    let mut scene = Scene::new(random, hop, ready(hop, frames), film, frames, 0.0, 0.0);
    scene.hear();
    steps(&mut scene, 18);
    scene.done("tiny")
}

/// A scene whose window is long enough for all advances, in a reference long enough for them.
fn roomy(mut random: Random, hop: f64, bands: usize) -> Scene {
    let frames = fewest(hop).max(lasting(2_600.0, hop)) + random.below(40);
    let count = frames + lasting(20_000.0, hop);
    let kind = random.one_of(&[Sound::Smooth, Sound::Smooth, Sound::Noise]);
    let film = reference(&mut random, kind, hop, 0.0, bands, count);
    let begin = random.below(100) as f64 * 10.0;
    let configuration = ready(hop, frames);
    let mut scene = Scene::new(random, hop, configuration, film, frames, begin, 2.0);
    scene.dirt = scene.random.one_of(&[0.0, 0.02, 0.1]);
    scene
}

const WHOLE_HOPS: [f64; 8] = [10.0, 20.0, 40.0, 50.0, 100.0, 125.0, 250.0, 500.0];

/// Neighbours of a chain at either side of 2,500, and its length at either side of 1,000 - hop.
pub fn chains(mut random: Random) -> Session {
    let hop = random.one_of(&WHOLE_HOPS);
    let mut scene = roomy(random, hop, 4);
    let steps = [
        2_500.0,
        2_500.0,
        2_500.5,
        2_501.0,
        1_000.0 - hop,
        999.5 - hop,
        1_000.0,
        500.0,
        600.0,
    ];
    scene.hear();
    for _ in 0..10 {
        let ms = scene.random.one_of(&steps);
        scene.after(ms.max(90.0));
        match scene.random.below(8) {
            0 => scene.half(),
            1 => scene.late(),
            2 => scene.silence(),
            3 => {
                // The mapping stays as it is, so that what comes after can be a chain again.
                scene.miss();
            }
            _ => scene.hear(),
        }
        if scene.random.one_in(6) {
            scene.go_to(3.0);
        }
    }
    scene.done("chains")
}

/// Searches that fail at the pending place, at either side of 2,500 after the last that passed.
pub fn held(mut random: Random) -> Session {
    let hop = random.one_of(&WHOLE_HOPS);
    let mut scene = roomy(random, hop, 4);
    for _ in 0..4 {
        scene.go_to(2.0);
        scene.hear();
        let ms = scene.random.one_of(&[2_500.0, 2_500.5, 2_501.0, 1_500.0]);
        scene.after(ms).half();
        scene.after(700.0).hear();
        if scene.random.one_in(2) {
            scene.after(500.0).half();
            scene.after(500.0).late();
            scene.after(500.0).hear();
        }
        scene.after(300.0);
        let far = scene.last() + 40_000.0;
        scene.now = far;
    }
    scene.done("held")
}

/// Coasts of exactly 1,500, and just past it.
pub fn coasts(mut random: Random) -> Session {
    let hop = random.one_of(&WHOLE_HOPS);
    let mut scene = roomy(random, hop, 4);
    for _ in 0..3 {
        scene.go_to(2.0);
        scene.hear();
        scene.after(1_000.0).hear();
        let first = scene.random.one_of(&[200.0, 500.0, 750.0, 1_000.0]);
        let last = scene.random.one_of(&[1_500.0, 1_500.0, 1_500.5, 1_501.0]);
        let lock = scene.now;
        if scene.random.one_in(2) {
            scene.now = lock + first;
            scene.miss();
        }
        scene.now = lock + last;
        scene.miss();
        scene.after(10.0).hear();
        if scene.random.one_in(2) {
            scene.after(250.0).hear();
            scene.after(500.0).hear();
            scene.after(2_000.0).hear();
        }
        scene.now = scene.last() + 40_000.0;
    }
    scene.done("coasts")
}

/// One passing search is a chain, on a jump too.
pub fn at_hop_1000(random: Random) -> Session {
    let hop = 1_000.0;
    let mut scene = roomy(random, hop, 3);
    scene.hear();
    for _ in 0..14 {
        match scene.random.below(7) {
            0 => scene.now -= 3_000.0,
            1 => {
                scene.now += 50_000.0;
                scene.offset -= 45_000.0;
            }
            2 => {
                scene.after(1_000.0);
                let place = scene.random.below(8) as f64;
                scene.go_to(place);
            }
            3 => {
                scene.after(1_000.0).miss();
            }
            4 => {
                scene.after(500.0).late();
            }
            _ => {
                let ms = scene.random.one_of(&[1_000.0, 500.0, 2_000.0, 1_500.0]);
                scene.after(ms);
            }
        }
        scene.hear();
    }
    scene.done("hop 1,000")
}

/// What is heard goes on elsewhere: where the old place still scores, and where it does not.
pub fn distant(mut random: Random) -> Session {
    let hop = random.one_of(&[20.0, 25.0, 40.0, 50.0, 100.0, 500.0]);
    let bands = 2 + random.below(3);
    let frames = fewest(hop).max(lasting(2_600.0, hop));
    let part = frames + lasting(30_000.0, hop);
    let mut film = reference(&mut random, Sound::Smooth, hop, 0.0, bands, 3 * part);
    // The second part is the first, changed; the third is something else.
    let change = random.one_of(&[0.3f32, 0.5, 0.7]);
    for band in 0..bands {
        let row = band * 3 * part;
        for i in 0..part {
            let old = film.values[row + i] * (1.0 - change);
            film.values[row + part + i] = old + film.values[row + part + i] * change;
        }
    }
    let configuration = ready(hop, frames);
    let mut scene = Scene::new(random, hop, configuration, film, frames, 0.0, 1.0);
    scene.hear();
    scene.after(1_000.0).hear();
    let rest = scene.random.one_of(&[1_000.0, 1_000.0, 500.0]);
    for parts in [1.0, -1.0, 2.0, -2.0] {
        scene.offset += parts * part as f64 * hop;
        for _ in 0..6 {
            scene.after(rest).hear();
        }
    }
    scene.done("distant")
}

/// Places that score the same, 750 ms apart and at other distances.
pub fn repeats(mut random: Random) -> Session {
    let (hop, period) = random.one_of(&[
        (250.0, 3),
        (125.0, 6),
        (150.0, 5),
        (75.0, 10),
        (50.0, 15),
        (30.0, 25),
        (250.0, 4),
        (750.0, 1),
        (20.0, 40),
        (62.5, 12),
    ]);
    let frames = fewest(hop) + random.below(8);
    let count = frames + 60 + random.below(80);
    let mut film = reference(&mut random, Sound::Repeats(period), hop, 0.0, 1, count);
    if random.one_in(2) {
        let at = random.below(count);
        film.values[at] += 7.0;
    }
    let mut scene = Scene::new(random, hop, ready(hop, frames), film, frames, 0.0, 4.0);
    for _ in 0..12 {
        scene.hear();
        let ms = scene.random.one_of(&[500.0, 750.0, 1_000.0, 2_000.0]);
        scene.after(ms);
        scene.dirt = scene.random.one_of(&[0.0, 0.1, 0.5]);
        if scene.random.one_in(3) {
            let place = scene.random.below(40) as f64;
            scene.go_to(place);
        }
    }
    scene.done("repeats")
}

/// A reference that the centred window fits in at two places only. No parabola moves a peak at its
/// ends, so that offsets are exactly 80 apart, or 100.
pub fn edges(mut random: Random) -> Session {
    let hop = random.one_of(&[500.0, 600.0, 750.0, 1_000.0]);
    let frames = fewest(hop) + random.below(30);
    let context = radius(hop) as f64;
    let count = frames - 2 * radius(hop) + 1;
    let bands = 2 + random.below(3);
    let film = reference(&mut random, Sound::Noise, hop, 0.0, bands, count);
    let configuration = ready(hop, frames);
    let mut scene = Scene::new(random, hop, configuration, film, frames, 0.0, -context);
    for _ in 0..7 {
        scene.go_to(-context);
        scene.hear();
        let apart = scene
            .random
            .one_of(&[80.0, 80.0, -80.0, 100.0, -100.0, 81.0]);
        scene.after(hop + apart).go_to(1.0 - context);
        match scene.random.below(3) {
            0 => scene.half(),
            _ => scene.hear(),
        }
        if scene.random.one_in(2) {
            scene.after(95.0).hear();
        }
        // What comes next is a jump.
        scene.now -= 9_000.0;
    }
    scene.done("edges")
}

/// Few loud frames of one level: neighbouring places score the same.
pub fn pulses(mut random: Random) -> Session {
    let hop = random.one_of(&[250.0, 500.0, 1_000.0, 300.0]);
    let frames = fewest(hop) + random.below(12);
    // Near the reference's start an offset has bits enough to show what the clamp takes off.
    let more = random.one_of(&[2, 4, 60]);
    let count = frames + random.below(more);
    let film = reference(&mut random, Sound::Pulses, hop, 0.0, 1, count);
    let mut scene = Scene::new(random, hop, ready(hop, frames), film, frames, 0.0, 0.0);
    for _ in 0..14 {
        let count = scene.opening.reference.times.len();
        let place = scene.random.below(count.saturating_sub(frames).max(1)) as f64;
        scene.go_to(place);
        if scene.random.one_in(2) {
            let window = scene.strange(frames, Sound::Pulses);
            scene.submit("other pulses", window);
        } else {
            scene.hear();
        }
        scene.after(1_000.0);
    }
    scene.done("pulses")
}

/// References and windows, found by search among millions, where the parabola passes half a frame by
/// rounding and the offset shows it. Levels by digit: 5 stands for 0.5.
const PAST_HALF: [(&str, &str); 4] = [
    ("3300003300030000000000000", "00003330000000000000033"),
    ("0033000000000000005500033", "000000110000000000300000"),
    ("00030000001150000000", "00000055000000110033"),
    ("000000300500033000000000000", "0000000000003330011050000"),
];

pub fn past_half(random: Random, turn: u64) -> Session {
    let (film, heard) = PAST_HALF[turn as usize % PAST_HALF.len()];
    let levels = |digits: &str| -> Vec<f32> {
        let level = |digit: u8| match digit {
            b'5' => 0.5,
            _ => f32::from(digit - b'0'),
        };
        digits.bytes().map(level).collect()
    };
    let hop = 250.0;
    let reference = Soundtrack {
        bands: 1,
        times: regular(0.0, hop, film.len()),
        values: levels(film),
    };
    let frames = heard.len();
    let configuration = ready(hop, frames);
    let mut scene = Scene::new(random, hop, configuration, reference, frames, 0.0, 0.0);
    let mut window = scene.heard(frames);
    window.values = levels(heard);
    scene.submit("a parabola past half a frame", window);
    scene.done("past half a frame")
}

/// Values from subnormal to the largest.
pub fn extreme(mut random: Random) -> Session {
    let hop = random.one_of(&[20.0, 100.0, 250.0, 1_000.0]);
    let (configuration, least) = configuration(&mut random, hop);
    let frames = least + random.below(8);
    let count = frames + random.below(200);
    let film = reference(&mut random, Sound::Extreme, hop, 1_000.0, 2, count);
    let mut scene = Scene::new(random, hop, configuration, film, frames, 0.0, 1.0);
    scene.hear();
    steps(&mut scene, 14);
    scene.done("extreme")
}

/// The longest references, few of them with many bands.
pub fn large(mut random: Random, turn: u64) -> Session {
    let hop = random.one_of(&[20.0, 1.0, 23.22, 250.0]);
    let (count, bands) = match turn % 16 {
        0 => (65_535, 1),
        8 if turn % 160 == 8 => (65_535, 64),
        4 => (20_000, 2),
        12 => (65_535, 2),
        _ => (2_000 + random.below(4_000), 2),
    };
    let (configuration, least) = configuration(&mut random, hop);
    let frames = (least + random.below(40)).min(MOST_FRAMES);
    let film = reference(&mut random, Sound::Choruses, hop, 0.0, bands, count);
    let place = random.below(count - frames) as f64;
    let mut scene = Scene::new(random, hop, configuration, film, frames, 0.0, place);
    scene.hear();
    scene.after(1_000.0).hear();
    scene.after(500.0).hear();
    refused(&mut scene);
    let more = if bands > 2 { 2 } else { 8 };
    steps(&mut scene, more);
    scene.done("large")
}
