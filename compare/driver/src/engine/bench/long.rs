//! A million submissions to one engine: whether a call's time or the process's memory grows.

use super::super::generate::scene::{ready, Scene};
use super::super::ours::{self, Index};
use super::super::session::{index_lengths, work_lengths};
use super::super::words;
use crate::matcher::bench::clock::worked;
use crate::matcher::cases::FILM;
use crate::random::Random;
use crate::sessions::session::Window;
use crate::workload::ours::load;
use std::fs;
use std::time::Duration;

const SUBMISSIONS: usize = 1_000_000;
const LOOKED_AT: usize = 10_000;
const HOP: f64 = 20.0;
const FRAMES: usize = 130;
const BANDS: usize = 4;
/// Between one window and the next.
const STEP: f64 = 100.0;
/// After so many windows the sound begins anew, and the lock with it.
const HEARD: usize = 200;

pub struct Long {
    /// What each of the first and of the last took.
    pub first: Vec<Duration>,
    pub last: Vec<Duration>,
    /// Kilobytes.
    pub before: u64,
    pub after: u64,
    pub computed: usize,
    pub locked: usize,
}

pub fn measured() -> Long {
    let reference_frames = FRAMES + (HEARD as f64 * STEP / HOP) as usize;
    let random = Random::new(11);
    let film = load(FILM, HOP, BANDS, reference_frames)
        .expect("nothing to refuse")
        .into();
    let mut scene = Scene::new(random, HOP, ready(HOP, FRAMES), film, FRAMES, 0.0, 0.0);
    let mut windows: Vec<Window> = Vec::new();
    for _ in 0..HEARD {
        windows.push(scene.heard(FRAMES));
        scene.after(STEP);
    }
    let mut index = Index::new(index_lengths(reference_frames, BANDS));
    let mut state = vec![0; words::STATE];
    assert_eq!(
        ours::open(&scene.opening, &mut index, &mut state),
        0,
        "opened"
    );
    let [narrow, wide] = work_lengths(BANDS, FRAMES, reference_frames);
    let (mut work32, mut work64) = (vec![0.0; narrow], vec![0.0; wide]);
    let mut snapshot = vec![0; words::SNAPSHOT];
    let mut long = Long {
        first: Vec::with_capacity(LOOKED_AT),
        last: Vec::with_capacity(LOOKED_AT),
        before: 0,
        after: 0,
        computed: 0,
        locked: 0,
    };
    let lengths = index.lengths();
    for number in 0..SUBMISSIONS {
        if number == LOOKED_AT {
            long.before = resident();
        }
        let window = &mut windows[number % HEARD];
        let begun = worked();
        let code = ours::submit(
            &mut state,
            &index,
            lengths,
            window,
            number as f64,
            (&mut work32, &mut work64),
            &mut snapshot,
        );
        let taken = worked() - begun;
        if number < LOOKED_AT {
            long.first.push(taken);
        }
        if number >= SUBMISSIONS - LOOKED_AT {
            long.last.push(taken);
        }
        long.computed += usize::from(code == ours::COMPUTED);
        long.locked += usize::from(snapshot[1] == 4);
        // The same sound comes again later.
        for time in &mut window.times {
            *time += HEARD as f64 * STEP;
        }
    }
    long.after = resident();
    long
}

/// What of the process is in memory, in kilobytes.
fn resident() -> u64 {
    let status = fs::read_to_string("/proc/self/status").unwrap_or_default();
    let line = status.lines().find(|line| line.starts_with("VmRSS:"));
    let number = line.and_then(|line| line.split_whitespace().nth(1));
    number.and_then(|number| number.parse().ok()).unwrap_or(0)
}
