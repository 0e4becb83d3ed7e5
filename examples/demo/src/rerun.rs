//! The picture of the third screening: windows across, in the order in which they are handed in;
//! below each other their sound, the places, what is counted, and the state, and how it would be
//! without the restore.

use crate::lanes::{lanes_height, states};
use crate::mark::Rerun;
use crate::panels::{across, axis, head, heading, strip, turn, Mark, Panel, Stretch, LEFT, WIDTH};
use crate::places::{by_windows, section_colour};
use crate::seat::{FAILURE_MS, MARK_MS};
use crate::session::{Moment, Order, LEAST_EVIDENCE_MS};
use crate::svg::{fill, Svg, BLUE, GREY, ORANGE, PALE, PLAIN, PURPLE, RED, SKY};

const TITLE: &str = "A reel is rerun from a mark, and the unit stands as it stood there";
const SENTENCES: [&str; 2] = [
    "At the mark the unit's state is kept, with half a second of evidence. The sound fails; film and recorder are set back to there,",
    "and the state is restored. The same sound is answered as the first time, and locks as soon. Without the restore it is a jump.",
];
const ACROSS: (f64, f64) = (0.5, 34.5);

const REEL: Panel = panel(104.0, 24.0, (0.0, 1.0));
const TURNS: Panel = panel(132.0, 22.0, (0.0, 1.0));
const SOUND: Panel = panel(196.0, 170.0, (0.0, 7.5));
const PLACES: Panel = panel(408.0, 170.0, (8.0, 22.0));
const CHAIN: Panel = panel(620.0, 140.0, (0.0, 1.4));
const STATES: Panel = panel(802.0, lanes_height(5), (0.0, 1.0));
const UNRESTORED: Panel = panel(954.0, lanes_height(2), (0.0, 1.0));

const fn panel(top: f64, height: f64, up: (f64, f64)) -> Panel {
    Panel {
        top,
        height,
        across: ACROSS,
        up,
    }
}

pub fn draw(rerun: &Rerun) -> String {
    let mut svg = Svg::new(WIDTH, UNRESTORED.bottom() + 56.0);
    let moments = [&rerun.before[..], &rerun.failing, &rerun.again].concat();
    let (_, restored) = ends(rerun);
    head(&mut svg, TITLE, SENTENCES);
    strip(&mut svg, &REEL, "the film", &stretches(rerun));
    sound(&mut svg, &moments, restored);
    by_windows(&mut svg, &PLACES, &moments);
    chain(&mut svg, rerun);
    let legend = [(Mark::Square(SKY), "Locked, coasting")];
    heading(&mut svg, STATES.top - 12.0, "State", &legend);
    states(&mut svg, &STATES, &moments, across, (0.5, 0.5));
    heading(
        &mut svg,
        UNRESTORED.top - 12.0,
        "State without the restore",
        &[],
    );
    let behind = |number| across(restored + number);
    states(&mut svg, &UNRESTORED, &rerun.unrestored, behind, (0.5, 0.5));
    turns(&mut svg, rerun);
    let windows = [1, 5, 10, 15, 20, 25, 30];
    axis(
        &mut svg,
        &UNRESTORED,
        &windows,
        "windows, in the order in which they are handed in",
    );
    svg.finish(TITLE)
}

/// What the film does, by the windows handed in meanwhile.
fn stretches(rerun: &Rerun) -> [Stretch; 4] {
    let sound = section_colour("verse 1");
    let whole = rerun.twice().count();
    let mut begin = ACROSS.0;
    let mut stretch = |name, windows: usize, colour| {
        let end = begin + windows as f64;
        let stretch = Stretch {
            name,
            begin,
            end,
            colour,
        };
        begin = end;
        stretch
    };
    [
        stretch("to the mark", rerun.before.len(), sound),
        stretch("plays on", whole, sound),
        stretch("the sound fails", rerun.failing.len() - whole, "#C9C9C9"),
        stretch("set back, from the mark again", rerun.again.len(), sound),
    ]
}

/// The recorded time that each window holds; up to the restore the sound fails.
fn sound(svg: &mut Svg, moments: &[Moment], restored: usize) {
    let legend = [
        (Mark::Square(BLUE), "goes on from the window before"),
        (Mark::Square(GREY), "the mark's, read again"),
        (Mark::Square(PALE), "silence"),
    ];
    heading(
        svg,
        SOUND.top - 12.0,
        "Sound in each window (recorded time)",
        &legend,
    );
    SOUND.marks(
        svg,
        &[(0.0, "0 s"), (2.0, "2 s"), (4.0, "4 s"), (6.0, "6 s")],
        LEFT,
    );
    for (number, moment) in moments.iter().enumerate() {
        let read_again = moment.order == Order::ReadAgain;
        let colour = if read_again { GREY } else { BLUE };
        let [start, end] = [moment.handed.start_ms, moment.handed.endpoint_ms];
        let failing = number < restored;
        let heard = if failing { end.min(FAILURE_MS) } else { end };
        stretch(svg, number, (start, heard), colour);
        stretch(svg, number, (heard, end), PALE);
    }
    let mark = MARK_MS as f64 / 1_000.0;
    SOUND.threshold(svg, mark, RED, "the mark: 3.24 s");
    SOUND.border(svg);
}

fn stretch(svg: &mut Svg, number: usize, (start_ms, end_ms): (i64, i64), colour: &str) {
    let ends = [start_ms, end_ms].map(|ms| SOUND.at(across(number), ms as f64 / 1_000.0));
    let [(left, bottom), (_, top)] = ends;
    if end_ms > start_ms {
        svg.rect((left - 8.0, top), (16.0, bottom - top), &fill(colour));
    }
}

fn chain(svg: &mut Svg, rerun: &Rerun) {
    let legend = [
        (Mark::Square(ORANGE), "evidence, up to the lock"),
        (Mark::Square(PALE), "unchanged: no search, or read again"),
        (Mark::Square(PURPLE), "without the restore"),
    ];
    heading(svg, CHAIN.top - 12.0, "What the chain counts", &legend);
    CHAIN.marks(svg, &[(0.0, "0 s"), (0.5, "0.5 s"), (1.0, "1 s")], LEFT);
    CHAIN.threshold(
        svg,
        LEAST_EVIDENCE_MS / 1_000.0,
        RED,
        "0.98 s of evidence: locked",
    );
    let (marked, restored) = ends(rerun);
    let [first, again] = rerun.takes();
    bars(svg, &first, across(0), (16.0, ORANGE));
    // Side by side.
    let [left, right] = [-BESIDE, BESIDE].map(|by| across(restored) + by);
    bars(svg, &again[marked..], left, (9.0, ORANGE));
    bars(svg, &rerun.unrestored, right, (9.0, PURPLE));
    CHAIN.border(svg);
}

/// How far two bars of one window stand from its middle.
const BESIDE: f64 = 0.17;

/// The chain's evidence up to the first lock, from some place across on, with the bars' width and
/// colour.
fn bars(svg: &mut Svg, moments: &[Moment], begin: f64, (width, colour): (f64, &str)) {
    let lock = moments.iter().position(Moment::is_locked);
    let chain = lock.map_or(moments, |lock| &moments[..=lock]);
    for (number, moment) in chain.iter().enumerate() {
        let colour = if moment.searched() { colour } else { PALE };
        let (at, up) = (begin + number as f64, moment.evidence_ms() / 1_000.0);
        CHAIN.bar(svg, at, up, (width, colour));
    }
}

/// How many windows there are up to the mark, and up to the restore.
fn ends(rerun: &Rerun) -> (usize, usize) {
    let marked = rerun.before.len();
    (marked, marked + rerun.failing.len())
}

/// Lines at the mark, at the restore and where a chain ends.
fn turns(svg: &mut Svg, rerun: &Rerun) {
    let panels = [&TURNS, &SOUND, &PLACES, &CHAIN, &STATES, &UNRESTORED];
    let (marked, restored) = ends(rerun);
    for (number, words) in [(marked, "mark: kept"), (restored, "restored")] {
        let between = across(number) - 0.5;
        turn(svg, &panels, between, words, PLAIN.to_the_left());
    }
    for (begin, moments) in [(marked, &rerun.failing), (restored, &rerun.again)] {
        let lock = moments.iter().position(Moment::is_locked);
        if let Some(number) = lock {
            turn(svg, &panels, across(begin + number), "locked", PLAIN);
        }
    }
}
