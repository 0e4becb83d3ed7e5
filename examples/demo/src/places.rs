//! The panel of places: the film's sections at its side, what searches found, what is shown.

use crate::film::{END_MS, SECTIONS};
use crate::panels::{across, heading, ring, Mark, Panel, LEFT, RIGHT};
use crate::session::Moment;
use crate::svg::{stroke, Svg, BLUE, GREY, INK, ORANGE, PLAIN, SKY};

/// Where the names of sections begin.
const NAMES: f64 = 84.0;

/// Both choruses have one colour.
pub fn section_colour(name: &str) -> &'static str {
    match name {
        "1st chorus" | "2nd chorus" => "#FFE9B8",
        "verse 1" | "verse 2" => "#E3EEF6",
        _ => "#F3F3F3",
    }
}

/// Windows across: where each truly was, what is shown, and what searches found. The legend's last
/// entry is left out where nothing coasts.
pub fn by_windows(svg: &mut Svg, panel: &Panel, moments: &[Moment]) {
    let legend = [
        (Mark::Ring(GREY), "true place"),
        (Mark::Dot(INK), "found by a search (pale: weakly)"),
        (Mark::Line(ORANGE, 4.0), "guess"),
        (Mark::Line(BLUE, 7.0), "locked"),
        (Mark::Line(SKY, 7.0), "coasting"),
    ];
    let coasts = moments.iter().any(Moment::coasts);
    let told = &legend[..legend.len() - usize::from(!coasts)];
    let title = "Place on the film (minutes:seconds)";
    heading(svg, panel.top - 12.0, title, told);
    film(svg, panel);
    film_times(svg, panel);
    for (number, moment) in moments.iter().enumerate() {
        let at = panel.at(across(number), moment.true_ms as f64 / 1_000.0);
        svg.dot(at, 5.0, &ring(GREY));
    }
    shown(svg, panel, moments, across);
    candidates(svg, panel, moments, across);
    panel.border(svg);
}

/// The film's sections as bands, with their names and the film's time at the side.
pub fn film(svg: &mut Svg, panel: &Panel) {
    let ends = SECTIONS.iter().skip(1).map(|section| section.begin_ms);
    for (section, end_ms) in SECTIONS.iter().zip(ends.chain([END_MS])) {
        let low = (section.begin_ms as f64 / 1_000.0).max(panel.up.0);
        let high = (end_ms as f64 / 1_000.0).min(panel.up.1);
        if low >= high {
            continue;
        }
        let (top, height) = (panel.y(high), panel.y(low) - panel.y(high));
        let style = format!(
            r##"fill="{}" stroke="#FFFFFF""##,
            section_colour(section.name)
        );
        svg.rect((NAMES, top), (RIGHT - NAMES, height), &style);
        let middle = ((NAMES + LEFT) / 2.0, top + height / 2.0 + 4.0);
        svg.words(middle, PLAIN.centred(), section.name);
    }
    let style = format!(r#"fill="none" stroke="{GREY}""#);
    svg.rect((NAMES, panel.top), (LEFT - NAMES, panel.height), &style);
}

/// Minutes and seconds of the film at the side, every ten seconds.
pub fn film_times(svg: &mut Svg, panel: &Panel) {
    let tens = (0..=END_MS / 10_000).map(|ten| ten * 10);
    let tens = tens.filter(|&s| (panel.up.0..=panel.up.1).contains(&(s as f64)));
    for seconds in tens {
        let words = format!("{}:{:02}", seconds / 60, seconds % 60);
        panel.marks(svg, &[(seconds as f64, &words)], NAMES);
    }
}

/// The places of all candidates that searches found; the better one correlates, the darker it is.
pub fn candidates(svg: &mut Svg, panel: &Panel, moments: &[Moment], across: impl Fn(usize) -> f64) {
    let searched = moments
        .iter()
        .enumerate()
        .filter(|(_, moment)| moment.searched());
    for (number, moment) in searched {
        for candidate in &moment.shown.diagnostics.candidates {
            let place_ms = moment.handed.endpoint_ms as f64 + candidate.offset_ms;
            let shade = candidate.combined_dense_score.clamp(0.0, 1.0);
            let at = panel.at(across(number), place_ms / 1_000.0);
            if (panel.up.0..=panel.up.1).contains(&(place_ms / 1_000.0)) {
                svg.dot(
                    at,
                    3.0,
                    &format!(r#"fill="{INK}" fill-opacity="{shade:.2}""#),
                );
            }
        }
    }
}

/// The place shown, from each window to the next: a guess, a lock, or one that coasts.
pub fn shown(svg: &mut Svg, panel: &Panel, moments: &[Moment], across: impl Fn(usize) -> f64) {
    for (number, pair) in moments.windows(2).enumerate() {
        let [from, to] = [&pair[0], &pair[1]];
        let (Some(begin_ms), Some(end_ms)) = (from.place_ms(), to.place_ms()) else {
            continue;
        };
        let (colour, width) = match (from.is_locked(), to.coasts()) {
            (true, true) => (SKY, 7.0),
            (true, false) => (BLUE, 7.0),
            (false, _) => (ORANGE, 4.0),
        };
        let ends = [(number, begin_ms), (number + 1, end_ms)];
        let points = ends.map(|(number, ms)| panel.at(across(number), ms / 1_000.0));
        svg.path(&points, &stroke(colour, width));
    }
}
