//! The picture of the second screening: windows across, in the order in which they are handed in;
//! below each other their sound, the places, what is counted, and the state.

use crate::film::VERSE_2_MS;
use crate::lanes::{lanes_height, states};
use crate::panels::{across, axis, head, heading, strip, turn, Mark, Panel, Stretch, LEFT, WIDTH};
use crate::places::by_windows;
use crate::seat::Screening;
use crate::session::{locks, Moment, Order, LEAST_EVIDENCE_MS};
use crate::svg::{fill, stroke, Svg, BLUE, GREY, INK, ORANGE, PALE, PLAIN, PURPLE, RED};

const TITLE: &str = "The same sound, handed in again and again, counts once";
const SENTENCES: [&str; 2] = [
    "A loaded processor hands in the same seconds of the chorus back and forth, and they fit the wrong chorus best. A unit that adds up",
    "windows would count a minute for it; its chains never come to 0.98 s, and the lock comes at the true place, in verse 2.",
];
const ACROSS: (f64, f64) = (0.5, 31.5);

const ORDER: Panel = panel(104.0, 24.0, (0.0, 1.0));
const TURNS: Panel = panel(132.0, 22.0, (0.0, 1.0));
const SOUND: Panel = panel(196.0, 180.0, (0.0, 6.5));
const PLACES: Panel = panel(418.0, 200.0, (26.0, 60.0));
const ADDED: Panel = panel(660.0, 140.0, (0.0, 65.0));
const CHAIN: Panel = panel(842.0, 120.0, (0.0, 1.3));
const STATES: Panel = panel(1_004.0, lanes_height(3), (0.0, 1.0));

const fn panel(top: f64, height: f64, up: (f64, f64)) -> Panel {
    Panel {
        top,
        height,
        across: ACROSS,
        up,
    }
}

pub fn draw(screening: &Screening, moments: &[Moment]) -> String {
    let mut svg = Svg::new(WIDTH, STATES.bottom() + 56.0);
    head(&mut svg, TITLE, SENTENCES);
    strip(&mut svg, &ORDER, "handed in", &orders(moments));
    sound(&mut svg, screening, moments);
    places(&mut svg, moments);
    added_up(&mut svg, moments);
    chain(&mut svg, moments);
    heading(&mut svg, STATES.top - 12.0, "State", &[]);
    states(&mut svg, &STATES, moments, across, (0.5, 0.5));
    for lock in locks(moments) {
        let number = moments.iter().position(|moment| std::ptr::eq(moment, lock));
        let panels = [&TURNS, &SOUND, &PLACES, &ADDED, &CHAIN, &STATES];
        turn(
            &mut svg,
            &panels,
            across(number.unwrap_or(0)),
            "chain ends: locked",
            PLAIN.to_the_left(),
        );
    }
    let windows = [1, 5, 10, 15, 20, 25, 30];
    axis(
        &mut svg,
        &STATES,
        &windows,
        "windows, in the order in which they are handed in",
    );
    svg.finish(TITLE)
}

/// Up to the last window that is older than the one before, and after it.
fn orders(moments: &[Moment]) -> [Stretch; 2] {
    let last = moments
        .iter()
        .rposition(|moment| moment.order == Order::Older);
    let turn = across(last.unwrap_or(0)) + 0.5;
    let stretch = |name, begin, end, colour| Stretch {
        name,
        begin,
        end,
        colour,
    };
    [
        stretch(
            "the same seconds, back and forth",
            ACROSS.0,
            turn,
            "#F3E3EC",
        ),
        stretch("in order", turn, ACROSS.1, "#FFFFFF"),
    ]
}

/// The recorded time that each window holds.
fn sound(svg: &mut Svg, screening: &Screening, moments: &[Moment]) {
    let legend = [
        (Mark::Square(BLUE), "goes on from the window before"),
        (Mark::Square(PURPLE), "is older: all begins anew"),
        (Mark::Square(GREY), "is read again: not counted"),
    ];
    heading(
        svg,
        SOUND.top - 12.0,
        "Sound in each window (recorded time)",
        &legend,
    );
    SOUND.marks(
        svg,
        &[(0.0, "0 s"), (2.0, "2 s"), (4.0, "4 s"), (6.0, "6 s")],
        LEFT,
    );
    for (number, moment) in moments.iter().enumerate() {
        let colour = match moment.order {
            Order::ReadAgain => GREY,
            Order::Older | Order::AfterGap => PURPLE,
            Order::OnTime => BLUE,
        };
        let [start, end] = [moment.handed.start_ms, moment.handed.endpoint_ms];
        let [(left, bottom), (_, top)] =
            [start, end].map(|ms| SOUND.at(across(number), ms as f64 / 1_000.0));
        svg.rect((left - 8.0, top), (16.0, bottom - top), &fill(colour));
    }
    let verse = (VERSE_2_MS - screening.place_at(0)) as f64 / 1_000.0;
    SOUND.threshold(svg, verse, RED, "here verse 2 begins in the hall");
    SOUND.border(svg);
}

fn places(svg: &mut Svg, moments: &[Moment]) {
    by_windows(svg, &PLACES, moments);
    svg.words(
        PLACES.at(1.5, 52.0),
        PLAIN,
        "the wrong chorus fits best: a guess, never locked",
    );
}

fn added_up(svg: &mut Svg, moments: &[Moment]) {
    let legend = [
        (Mark::Square(RED), "for the wrong place"),
        (Mark::Square(BLUE), "for the true one"),
        (Mark::Line(INK, 2.0), "sound heard so far"),
    ];
    heading(
        svg,
        ADDED.top - 12.0,
        "What adding up windows counts",
        &legend,
    );
    ADDED.marks(
        svg,
        &[(0.0, "0 s"), (20.0, "20 s"), (40.0, "40 s"), (60.0, "60 s")],
        LEFT,
    );
    let mut heard = Vec::new();
    let mut heard_ms = 0;
    for (number, moment) in moments.iter().enumerate() {
        let colour = if moment.is_wrong() { RED } else { BLUE };
        ADDED.bar(
            svg,
            across(number),
            moment.added_up_ms / 1_000.0,
            (16.0, colour),
        );
        heard_ms = heard_ms.max(moment.handed.endpoint_ms);
        heard.push(ADDED.at(across(number), heard_ms as f64 / 1_000.0));
    }
    svg.path(&heard, &stroke(INK, 2.0));
    ADDED.border(svg);
}

fn chain(svg: &mut Svg, moments: &[Moment]) {
    let legend = [
        (Mark::Square(ORANGE), "evidence, up to the lock"),
        (Mark::Square(PALE), "unchanged: no search, or read again"),
    ];
    heading(svg, CHAIN.top - 12.0, "What the chain counts", &legend);
    CHAIN.marks(svg, &[(0.0, "0 s"), (0.5, "0.5 s"), (1.0, "1 s")], LEFT);
    CHAIN.threshold(
        svg,
        LEAST_EVIDENCE_MS / 1_000.0,
        RED,
        "0.98 s of evidence: locked",
    );
    let lock = locks(moments).first().map(|lock| lock.handed);
    for (number, moment) in moments.iter().enumerate() {
        let colour = if moment.searched() { ORANGE } else { PALE };
        if !moment.is_locked() || Some(moment.handed) == lock {
            CHAIN.bar(
                svg,
                across(number),
                moment.evidence_ms() / 1_000.0,
                (16.0, colour),
            );
        }
    }
    CHAIN.border(svg);
}
