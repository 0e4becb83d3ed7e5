//! The sessions of the list: some for what has to be reached, the others by chance.

use super::line::{
    Head, Step, BAD_VALUE, BANDS_65, FEWER_ENERGIES, FEWER_VALUES, LATE_TIME, MORE_BANDS, NO_BANDS,
};
use crate::engine::generate::scene::{fewest, radius};
use crate::random::Random;

const FOREVER: usize = 4_096;
const MOST_FRAMES: usize = 120;

pub fn sessions() -> Vec<(Head, Vec<Step>)> {
    let mut all: Vec<(Head, Vec<Step>)> = refused_openings();
    all.push(without_index());
    all.push(readiness());
    all.push(refusals());
    all.push(repeats());
    all.push(held());
    all.push(coasts());
    all.push(at_hop_1000());
    let chances = [
        (20.0, 3, 400, 110),
        (23.22, 2, 400, 100),
        (250.0, 4, 200, 40),
        (500.0, 1, 180, 30),
        (501.0, 2, 150, 25),
        (1_000.0, 2, 120, 24),
        (20.0, 4, 400, 120),
        (50.0, 1, 300, 70),
        (100.0, 3, 250, 45),
    ];
    for (number, (hop, bands, frames, window)) in chances.into_iter().enumerate() {
        all.push(by_chance(number as u64, hop, bands, frames, window));
    }
    all
}

/// A listener.
struct Scene {
    head: Head,
    frames: usize,
    /// Where the window to come begins.
    begin: f64,
    /// The reference's frame at recorded time 0.
    place: f64,
    noise: u64,
    salt: u64,
    clock: f64,
    steps: Vec<Step>,
}

impl Scene {
    fn new(seed: u64, hop: f64, bands: usize, frames: usize, window: usize) -> Self {
        let duration = (window - 1) as f64 * hop;
        Self {
            head: Head {
                seed,
                hop,
                period: FOREVER,
                bands,
                frames,
                start: 0.0,
                readiness: duration.min(2_500.0),
                tracking: (duration * 0.75).min(2_000.0),
                fraction: 0.35,
                fault: 0,
                at: 0,
            },
            frames: window,
            begin: 0.0,
            place: 3.0,
            noise: 4,
            salt: 0,
            clock: 100.0,
            steps: Vec::new(),
        }
    }

    fn done(self) -> (Head, Vec<Step>) {
        (self.head, self.steps)
    }

    fn step(&mut self) -> Step {
        self.salt += 1;
        self.clock += 50.25;
        let from = (self.begin / self.head.hop).round() + self.place;
        Step {
            begin: self.begin,
            frames: self.frames,
            from: from.max(0.0) as usize,
            since: 0,
            until: self.frames,
            noise: self.salt * 64 + self.noise,
            energy: -20.0,
            loud: self.frames,
            clock: self.clock,
            fault: 0,
            at: 0,
        }
    }

    /// Whole hops, about so long.
    fn after(&mut self, ms: f64) -> &mut Self {
        let hop = self.head.hop;
        self.begin += (ms / hop).round().max(1.0) * hop;
        self
    }

    fn hear(&mut self) {
        self.submit(|_| {});
    }

    fn miss(&mut self) {
        self.submit(|step| step.until = 0);
    }

    /// The second half is of something else.
    fn half(&mut self) {
        self.submit(|step| step.until = step.frames / 2);
    }

    fn submit(&mut self, change: impl FnOnce(&mut Step)) {
        let mut step = self.step();
        change(&mut step);
        self.steps.push(step);
    }

    fn fault(&mut self, fault: usize) {
        self.submit(|step| {
            step.fault = fault;
            step.at = 7;
        });
    }
}

/// Refused 1 to 6.
fn refused_openings() -> Vec<(Head, Vec<Step>)> {
    let head = Scene::new(11, 100.0, 2, 60, 30).head;
    let with = |change: &dyn Fn(&mut Head)| {
        let mut head = head.clone();
        change(&mut head);
        (head, Vec::new())
    };
    vec![
        with(&|head| head.readiness = -1.0),
        with(&|head| head.hop = 0.5),
        with(&|head| head.fault = BANDS_65),
        with(&|head| head.fault = FEWER_VALUES),
        with(&|head| head.start = 2e12),
        // Both energies are one short, then the averages' alone.
        with(&|head| (head.bands, head.frames) = (5, 320)),
        with(&|head| (head.bands, head.frames) = (7, 228)),
    ]
}

fn without_index() -> (Head, Vec<Step>) {
    let mut scene = Scene::new(12, 100.0, 2, 60, 30);
    scene.head.fault = BAD_VALUE;
    scene.head.at = 17;
    scene.hear();
    scene.begin += 50.0;
    scene.hear();
    scene.after(500.0).hear();
    scene.done()
}

/// Each reason that a window is not searched for, before the first lock and after it.
fn readiness() -> (Head, Vec<Step>) {
    let mut scene = Scene::new(13, 50.0, 3, 200, 60);
    for turn in 0..2 {
        scene.submit(|step| step.frames = 20);
        scene.after(500.0).submit(|step| step.energy = -90.0);
        scene.after(500.0).submit(|step| step.loud = 10);
        scene.after(500.0).fault(LATE_TIME);
        scene.after(500.0).fault(MORE_BANDS);
        scene.begin += 20.0;
        scene.fault(LATE_TIME);
        scene.begin -= 20.0;
        if turn == 0 {
            for _ in 0..4 {
                scene.after(500.0).hear();
            }
        }
    }
    scene.done()
}

/// Refused 6 and 8 to 13, in a session that goes on as if they had not been.
fn refusals() -> (Head, Vec<Step>) {
    let mut scene = Scene::new(14, 20.0, 2, 300, 110);
    let hear = |scene: &mut Scene| scene.after(500.0).hear();
    hear(&mut scene);
    for fault in [1, 2, 3, 4, 5, 6] {
        scene.fault(fault);
    }
    hear(&mut scene);
    for fault in [FEWER_ENERGIES, FEWER_VALUES, BANDS_65, NO_BANDS, BAD_VALUE] {
        scene.fault(fault);
    }
    hear(&mut scene);
    scene.submit(|step| step.clock = f64::INFINITY);
    scene.submit(|step| step.clock = f64::NAN);
    scene.submit(|step| step.frames = 0);
    scene.submit(|step| step.begin = 2e12);
    scene.submit(|step| step.energy = f64::INFINITY);
    scene.submit(|step| step.energy = f64::NEG_INFINITY);
    hear(&mut scene);
    scene.done()
}

/// Places that score the same.
fn repeats() -> (Head, Vec<Step>) {
    let mut scene = Scene::new(15, 20.0, 2, 400, 100);
    scene.head.period = 40;
    for _ in 0..4 {
        scene.hear();
        scene.after(500.0);
    }
    scene.done()
}

/// Searches that fail at the pending place, and one that fails elsewhere.
fn held() -> (Head, Vec<Step>) {
    let mut scene = Scene::new(35, 20.0, 4, 400, 120);
    scene.noise = 0;
    for until in [60, 66, 72, 78, 84] {
        scene.after(500.0).hear();
        scene.after(500.0).submit(|step| step.until = until);
    }
    scene.place += 70.0;
    scene.after(500.0).submit(|step| step.until = 72);
    scene.done()
}

/// A lock, a coast to its end and beyond, and a lock again.
fn coasts() -> (Head, Vec<Step>) {
    let mut scene = Scene::new(17, 100.0, 4, 260, 40);
    for _ in 0..3 {
        scene.after(500.0).hear();
    }
    for _ in 0..4 {
        scene.after(500.0).miss();
    }
    for _ in 0..4 {
        scene.after(500.0).hear();
    }
    scene.begin += 60.0;
    scene.hear();
    scene.begin -= 60.0;
    scene.after(300.0).hear();
    scene.place += 50.0;
    for _ in 0..5 {
        scene.after(1_000.0).hear();
    }
    scene.done()
}

/// One passing search is a chain, on a jump too.
fn at_hop_1000() -> (Head, Vec<Step>) {
    let mut scene = Scene::new(18, 1_000.0, 3, 200, 30);
    scene.hear();
    scene.after(1_000.0).hear();
    scene.begin -= 5_000.0;
    scene.hear();
    let length = scene.frames as f64 * 1_000.0;
    // Two hops past the last endpoint are not a jump yet.
    scene.begin += length + 1_000.0;
    scene.hear();
    scene.begin += length + 1_500.0;
    scene.hear();
    scene.after(1_000.0).miss();
    scene.after(1_000.0).hear();
    scene.done()
}

fn by_chance(
    number: u64,
    hop: f64,
    bands: usize,
    frames: usize,
    window: usize,
) -> (Head, Vec<Step>) {
    let mut random = Random::new(0x5e55_1045 + number);
    let window = window.max(fewest(hop)).min(MOST_FRAMES);
    let mut scene = Scene::new(100 + 7 * number, hop, bands, frames, window);
    scene.head.start = random.one_of(&[0.0, 5_000.0, -80_000.0]);
    scene.begin = (random.below(40) as f64) * hop;
    scene.place = 4.0 - scene.begin / hop;
    scene.noise = random.one_of(&[0, 4, 12]);
    scene.hear();
    for _ in 0..15 {
        step(&mut random, &mut scene);
    }
    scene.done()
}

fn step(random: &mut Random, scene: &mut Scene) {
    let hop = scene.head.hop;
    let advance = random.one_of(&[100.0, 250.0, 500.0, 500.0, 750.0, 1_000.0, 1_000.0, 2_000.0]);
    scene.after(advance);
    // Where the reference ends, a listener begins it anew.
    let from = scene.begin / hop + scene.place;
    if from + scene.frames as f64 > scene.head.frames as f64 {
        scene.place -= from - 2.0;
    }
    match random.below(20) {
        0 => scene.miss(),
        1 => scene.half(),
        2 => {
            let late = (1_250.0 / hop).ceil() as usize + radius(hop);
            scene.submit(|step| step.until = step.frames.saturating_sub(late));
        }
        3 => {
            scene.begin -= 5.0 * hop;
            scene.hear();
        }
        4 => {
            let gap = (scene.frames + 3) as f64;
            scene.begin += gap * hop;
            scene.place -= gap;
            scene.hear();
        }
        5 => scene.submit(|step| step.energy = -90.0),
        6 => {
            let place = random.below(scene.head.frames / 2) as f64;
            scene.place = place - scene.begin / hop;
            scene.hear();
        }
        7 => scene.noise = random.one_of(&[0, 8, 24, 40]),
        8 => {
            scene.hear();
            let begin = scene.begin;
            scene.begin += random.one_of(&[0.0, 20.0, 89.0, 90.0]);
            scene.hear();
            scene.begin = begin;
        }
        9 => scene.fault(1 + random.below(13)),
        _ => scene.hear(),
    }
}
