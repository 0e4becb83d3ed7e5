//! The picture of the first screening: recorded time across; below each other the places, the scores,
//! what is counted, and the state.

use crate::film::section_at;
use crate::lanes::{lanes_height, states};
use crate::panels::{
    axis, head, heading, ring, square, strip, turn, Mark, Panel, Stretch, LEFT, WIDTH,
};
use crate::places::{candidates, film, film_times, section_colour, shown};
use crate::seat::Screening;
use crate::session::{
    locks, Moment, Order, LEAST_CORRELATION, LEAST_EVIDENCE_MS, LEAST_MARGIN, MOST_COAST_MS,
};
use crate::svg::{fill, stroke, Svg, BLUE, GREY, INK, ORANGE, PALE, PLAIN, RED, SKY};
use kistovab::State;

const TITLE: &str = "How a seat finds its place on a film";
const SENTENCES: [&str; 2] = [
    "A place is locked only when searches of the whole film agree on it over 0.98 s of fresh sound. The chorus is on this film twice,",
    "so its two places score alike and nothing is locked; the verse is on it once, and there the evidence grows until it suffices.",
];
const ACROSS: (f64, f64) = (0.0, 20.0);
/// How far a window's state reaches: the next one comes 0.24 or 0.26 s later.
const STEP_S: f64 = 0.26;

const HALL: Panel = panel(104.0, 24.0, (0.0, 1.0));
const TURNS: Panel = panel(132.0, 22.0, (0.0, 1.0));
const PLACES: Panel = panel(196.0, 360.0, (0.0, 72.0));
const SCORES: Panel = panel(598.0, 150.0, (0.0, 1.0));
const COUNTED: Panel = panel(790.0, 136.0, (0.0, 1.9));
const STATES: Panel = panel(968.0, lanes_height(6), (0.0, 1.0));

const fn panel(top: f64, height: f64, up: (f64, f64)) -> Panel {
    Panel {
        top,
        height,
        across: ACROSS,
        up,
    }
}

pub fn draw(screening: &Screening, moments: &[Moment]) -> String {
    let mut svg = Svg::new(WIDTH, STATES.bottom() + 56.0);
    let playing = stretches(screening);
    head(&mut svg, TITLE, SENTENCES);
    strip(&mut svg, &HALL, "in the hall", &playing);
    places(&mut svg, screening, moments);
    scores(&mut svg, moments);
    counted(&mut svg, moments);
    let unheard = playing
        .iter()
        .filter(|stretch| UNHEARD.contains(&stretch.name));
    for stretch in unheard {
        for panel in [&PLACES, &SCORES, &COUNTED] {
            panel.shade(&mut svg, (stretch.begin, stretch.end));
        }
    }
    let legend = [
        (Mark::Square(SKY), "Locked, coasting"),
        (Mark::Square(INK), "window read again: nothing is counted"),
    ];
    heading(&mut svg, STATES.top - 12.0, "State", &legend);
    states(
        &mut svg,
        &STATES,
        moments,
        |number| recorded_s(&moments[number]),
        (0.0, STEP_S),
    );
    turns(&mut svg, moments);
    let seconds: Vec<_> = (0..=10).map(|two| two * 2).collect();
    axis(&mut svg, &STATES, &seconds, "recorded time (seconds)");
    svg.finish(TITLE)
}

fn recorded_s(moment: &Moment) -> f64 {
    moment.handed.endpoint_ms as f64 / 1_000.0
}

const UNHEARD: [&str; 3] = ["noise", "+20 s", "silence"];

/// What plays in the hall at a recorded time, and its colour.
fn playing(screening: &Screening, recorded_ms: i64) -> (&'static str, &'static str) {
    let section = section_at(screening.place_at(recorded_ms)).name;
    match section {
        _ if screening.noise_ms.contains(&recorded_ms) => (UNHEARD[0], "#C9C9C9"),
        _ if screening.gap_ms.contains(&recorded_ms) => (UNHEARD[1], "#FFFFFF"),
        "credits" => (UNHEARD[2], "#FFFFFF"),
        _ => (section, section_colour(section)),
    }
}

fn stretches(screening: &Screening) -> Vec<Stretch> {
    let mut stretches: Vec<Stretch> = Vec::new();
    for recorded_ms in 0..(ACROSS.1 * 1_000.0) as i64 {
        let (name, colour) = playing(screening, recorded_ms);
        let end = (recorded_ms + 1) as f64 / 1_000.0;
        match stretches.last_mut() {
            Some(last) if last.name == name => last.end = end,
            _ => stretches.push(Stretch {
                name,
                begin: end - 0.001,
                end,
                colour,
            }),
        }
    }
    stretches
}

/// Words beside the places: recorded time, place, both in seconds.
const NOTES: [(f64, f64, &str); 5] = [
    (0.15, 51.0, "both choruses"),
    (0.15, 47.5, "fit: no lock"),
    (5.9, 27.5, "verse 2 is on the film once: one place is left"),
    (9.0, 42.0, "kept while the audience is loud"),
    (11.1, 50.0, "the film skips 20 s"),
];

fn places(svg: &mut Svg, screening: &Screening, moments: &[Moment]) {
    let legend = [
        (Mark::Line(GREY, 1.5), "true place"),
        (Mark::Dot(INK), "found by a search (pale: weakly)"),
        (Mark::Line(ORANGE, 4.0), "guess"),
        (Mark::Line(BLUE, 7.0), "locked"),
        (Mark::Line(SKY, 7.0), "coasting"),
    ];
    heading(
        svg,
        PLACES.top - 12.0,
        "Place on the film (minutes:seconds)",
        &legend,
    );
    film(svg, &PLACES);
    film_times(svg, &PLACES);
    let recorded = |number: usize| recorded_s(&moments[number]);
    true_place(svg, screening);
    shown(svg, &PLACES, moments, recorded);
    candidates(svg, &PLACES, moments, recorded);
    PLACES.border(svg);
    for (recorded, place, words) in NOTES {
        svg.words(PLACES.at(recorded, place), PLAIN, words);
    }
}

fn true_place(svg: &mut Svg, screening: &Screening) {
    let gap = &screening.gap_ms;
    let end_ms = (ACROSS.1 * 1_000.0) as i64;
    for (begin_ms, end_ms) in [(0, gap.start), (gap.end, end_ms)] {
        let ends = [begin_ms, end_ms - 1].map(|ms| {
            let place = screening.place_at(ms) as f64 / 1_000.0;
            PLACES.at(ms as f64 / 1_000.0, place)
        });
        svg.path(&ends, &stroke(GREY, 1.5));
    }
}

fn scores(svg: &mut Svg, moments: &[Moment]) {
    let legend = [
        (Mark::Dot(BLUE), "correlation at the best place"),
        (Mark::Ring(BLUE), "the same, searched near the lock only"),
        (Mark::Square(ORANGE), "margin: best less second best"),
    ];
    heading(svg, SCORES.top - 12.0, "How well it fits", &legend);
    SCORES.marks(svg, &[(0.0, "0"), (0.5, "0.5"), (1.0, "1")], LEFT);
    SCORES.threshold(svg, LEAST_CORRELATION, BLUE, "correlation: at least 0.25");
    SCORES.threshold(svg, LEAST_MARGIN, ORANGE, "margin: at least 0.06");
    for moment in moments
        .iter()
        .filter(|moment| moment.order != Order::ReadAgain)
    {
        let found = &moment.shown.diagnostics.spectral;
        let at = |score: f64| SCORES.at(recorded_s(moment), score.clamp(0.0, 1.0));
        match found.competing_peak_margin {
            Some(margin) => {
                square(svg, at(margin), ORANGE);
                svg.dot(at(found.correlation), 4.0, &fill(BLUE));
            }
            None if found.correlation > 0.0 => svg.dot(at(found.correlation), 2.5, &ring(BLUE)),
            None => {}
        }
    }
    SCORES.border(svg);
}

fn counted(svg: &mut Svg, moments: &[Moment]) {
    let legend = [
        (Mark::Square(ORANGE), "the chain's evidence, up to the lock"),
        (Mark::Square(PALE), "unchanged: no search"),
        (Mark::Square(SKY), "coast: how long the film was not heard"),
    ];
    heading(svg, COUNTED.top - 12.0, "Seconds of sound", &legend);
    COUNTED.marks(
        svg,
        &[(0.0, "0 s"), (0.5, "0.5 s"), (1.0, "1 s"), (1.5, "1.5 s")],
        LEFT,
    );
    COUNTED.threshold(
        svg,
        LEAST_EVIDENCE_MS / 1_000.0,
        RED,
        "0.98 s of evidence: locked",
    );
    COUNTED.threshold(
        svg,
        MOST_COAST_MS / 1_000.0,
        SKY,
        "1.5 s of coast: given up",
    );
    let locks: Vec<_> = locks(moments).iter().map(|lock| lock.handed).collect();
    for moment in moments
        .iter()
        .filter(|moment| moment.order != Order::ReadAgain)
    {
        let chain = !moment.is_locked() || locks.contains(&moment.handed);
        let (ms, colour) = match (chain, moment.searched()) {
            (true, true) => (moment.evidence_ms(), ORANGE),
            (true, false) => (moment.evidence_ms(), PALE),
            (false, _) => (moment.shown.diagnostics.spectral.coast_ms, SKY),
        };
        COUNTED.bar(svg, recorded_s(moment), ms / 1_000.0, (9.0, colour));
    }
    COUNTED.border(svg);
}

/// Lines where a chain ends, where all begins anew and where the film is lost.
fn turns(svg: &mut Svg, moments: &[Moment]) {
    for pair in moments.windows(2) {
        let [before, moment] = [&pair[0], &pair[1]];
        let (words, set) = match moment.shown.state {
            State::Locked if !before.is_locked() => ("chain ends: locked", PLAIN),
            _ if moment.begins_anew() => ("jump: all begins anew", PLAIN.to_the_left()),
            State::Lost if before.is_locked() => ("lost", PLAIN),
            _ => continue,
        };
        let panels = [&TURNS, &PLACES, &SCORES, &COUNTED, &STATES];
        turn(svg, &panels, recorded_s(moment), words, set);
    }
}
