//! Windows whose margin lies within a thousandth of 0.06: how much of another sound is mixed in is
//! found by halving, with the Rust's own search. Of two places, and of a lone one.

use super::scene::{fewest, ready, reference, Scene};
use super::sound::{sound, Sound};
use crate::engine::session::Session;
use crate::random::Random;
use crate::sessions::record::{feature_window, reference_frames};
use crate::sessions::session::Window;
use sonalign::matcher::SpectralMatcher;

const MARGIN: f64 = 0.06;

pub fn session(mut random: Random) -> Session {
    let hop = random.one_of(&[250.0, 500.0, 1_000.0, 100.0]);
    let frames = fewest(hop) + random.below(6);
    let lone = random.one_in(2);
    let count = if lone { frames } else { frames + 60 };
    let bands = 1 + random.below(2);
    let film = reference(&mut random, Sound::Noise, hop, 0.0, bands, count);
    let matcher = SpectralMatcher::new(&reference_frames(&film), hop);
    let mut scene = Scene::new(random, hop, ready(hop, frames), film, frames, 0.0, 0.0);
    for _ in 0..8 {
        if !lone {
            let place = scene.random.below(50) as f64;
            scene.go_to(place);
        }
        let heard = scene.heard(frames);
        let other = sound(&mut scene.random, Sound::Noise, bands, frames);
        let window = match &matcher {
            Some(matcher) => between(matcher, &heard, &other, scene.random.one_in(2)),
            None => heard,
        };
        scene.submit("a margin near 0.06", window);
        if scene.random.one_in(3) {
            scene.after(500.0).hear();
        }
        let ms = scene.random.one_of(&[500.0, 1_000.0]);
        scene.after(ms);
    }
    scene.done("margins")
}

/// Of the other sound so much that the margin falls below, or just stays.
fn between(matcher: &SpectralMatcher, heard: &Window, other: &[f32], below: bool) -> Window {
    let (mut low, mut high) = (0.0f32, 1.0f32);
    for _ in 0..18 {
        let middle = (low + high) / 2.0;
        let window = mixed(heard, other, middle);
        let result = matcher.match_query(&feature_window(&window), None);
        if result.margin() < MARGIN {
            high = middle;
        } else {
            low = middle;
        }
    }
    mixed(heard, other, if below { high } else { low })
}

fn mixed(heard: &Window, other: &[f32], part: f32) -> Window {
    let mut window = heard.clone();
    for (value, other) in window.values.iter_mut().zip(other) {
        *value = *value * (1.0 - part) + other * part;
    }
    window
}
