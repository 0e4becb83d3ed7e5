//! Openings that are refused, and references that are rejected: an engine without index is as much
//! an engine as any.

use super::scene::{fewest, ready, reference, Scene};
use super::sound::Sound;
use super::steps::steps;
use crate::engine::session::{Opening, Session};
use crate::random::Random;
use sonalign::types::Configuration;

pub fn session(mut random: Random) -> Session {
    let hop = random.one_of(&[20.0, 250.0, 1_000.0]);
    let frames = fewest(hop) + random.below(10);
    let film = reference(&mut random, Sound::Noise, hop, 0.0, 2, frames + 20);
    let mut scene = Scene::new(random, hop, ready(hop, frames), film, frames, 0.0, 0.0);
    let wrong = scene.random.below(13);
    if wrong < 6 {
        spoil(&mut scene, wrong as u32 + 1);
        return scene.done("refused opening");
    }
    reject(&mut scene, wrong);
    scene.hear();
    steps(&mut scene, 14);
    scene.done("without index")
}

fn spoil(scene: &mut Scene, number: u32) {
    let which = scene.random.below(4);
    let Opening {
        configuration,
        hop,
        reference,
        short,
    } = &mut scene.opening;
    match number {
        1 => {
            let default = Configuration::default();
            *configuration = match which {
                0 => Configuration {
                    minimum_readiness_duration_ms: 0.0,
                    ..default
                },
                1 => Configuration {
                    tracking_query_duration_ms: f64::NAN,
                    ..default
                },
                2 => Configuration {
                    minimum_active_frame_energy_dbfs: f64::INFINITY,
                    ..default
                },
                _ => Configuration {
                    minimum_active_frame_fraction: 1.5,
                    ..default
                },
            };
        }
        2 => *hop = [0.0, 1_001.0, f64::NAN, -20.0][which],
        3 => {
            reference.bands = 65;
            reference.values = vec![1.0; 65 * reference.times.len()];
        }
        4 => {
            reference.values.pop();
        }
        5 => reference.times[which] = 1e12_f64.next_up(),
        _ => *short = Some(which),
    }
}

/// What the matcher does not take.
fn reject(scene: &mut Scene, wrong: usize) {
    let at = scene.random.below(scene.frames);
    let hop = scene.hop();
    let reference = &mut scene.opening.reference;
    match wrong {
        6 => reference.times[at] += hop * 0.06,
        7 => reference.times[at] = f64::NAN,
        8 => reference.times[at] = f64::INFINITY,
        9 => reference.values[at] = -1.0,
        10 => reference.values[at] = f32::NAN,
        11 => {
            reference.times.truncate(1);
            reference.values.truncate(reference.bands);
        }
        _ => {
            reference.times.clear();
            reference.values.clear();
        }
    }
}
