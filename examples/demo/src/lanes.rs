//! The panel of states: a lane for each.

use crate::panels::{Panel, LEFT, RIGHT};
use crate::session::{Moment, Order};
use crate::svg::{fill, stroke, Svg, BLUE, GREY, INK, ORANGE, PALE, PLAIN, PURPLE, RED, SKY};
use kistovab::State;

const LANES: [(&str, &str); 6] = [
    ("Listening", GREY),
    ("Locking", ORANGE),
    ("Locked", BLUE),
    ("Relocking", PURPLE),
    ("Lost", RED),
    ("read again", INK),
];
const LANE_HEIGHT: f64 = 22.0;

/// How high the lanes of states are.
pub const fn lanes_height(lanes: usize) -> f64 {
    lanes as f64 * LANE_HEIGHT
}

/// A lane for each state that occurs, and one for windows that are read again. `reach` is how far a
/// window's state is shown before and after the window.
pub fn states(
    svg: &mut Svg,
    panel: &Panel,
    moments: &[Moment],
    across: impl Fn(usize) -> f64,
    reach: (f64, f64),
) {
    let mut lanes: Vec<usize> = moments.iter().map(|moment| lane_of(moment).0).collect();
    lanes.sort_unstable();
    lanes.dedup();
    let top = |lane: usize| {
        let above = lanes.iter().filter(|&&other| other < lane).count();
        panel.top + lanes_height(above)
    };
    for &lane in &lanes {
        let (y, baseline) = (top(lane), top(lane) + 16.0);
        svg.words((LEFT - 9.0, baseline), PLAIN.to_the_left(), LANES[lane].0);
        svg.line((LEFT, y), (RIGHT, y), &stroke(PALE, 1.0));
    }
    for (number, moment) in moments.iter().enumerate() {
        let (lane, colour) = lane_of(moment);
        let [left, middle, right] = [-reach.0, 0.0, reach.1].map(|by| panel.x(across(number) + by));
        let (left, width) = match lane {
            READ_AGAIN => (middle - 2.0, 4.0),
            _ => (left, right - left),
        };
        let size = (width, LANE_HEIGHT - 8.0);
        svg.rect((left, top(lane) + 4.0), size, &fill(colour));
    }
    panel.border(svg);
}

const READ_AGAIN: usize = 5;

fn lane_of(moment: &Moment) -> (usize, &'static str) {
    let lane = match moment.shown.state {
        _ if moment.order == Order::ReadAgain => READ_AGAIN,
        State::Locked if moment.coasts() => return (2, SKY),
        State::Listening => 0,
        State::Locked => 2,
        State::Relocking => 3,
        State::Lost => 4,
        _ => 1,
    };
    (lane, LANES[lane].1)
}
