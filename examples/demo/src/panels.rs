//! What all pictures are made of: panels with scales, their names, and what stands around them.

use crate::svg::{fill, stroke, Point, Svg, Type, GREY, INK, PLAIN};

pub const WIDTH: f64 = 1_200.0;
pub const LEFT: f64 = 170.0;
pub const RIGHT: f64 = 1_170.0;

/// Where a window stands in a picture that has them across, counted from 1.
pub fn across(number: usize) -> f64 {
    number as f64 + 1.0
}

/// A stretch of the picture with its scales.
pub struct Panel {
    pub top: f64,
    pub height: f64,
    pub across: (f64, f64),
    pub up: (f64, f64),
}

impl Panel {
    pub fn x(&self, value: f64) -> f64 {
        LEFT + (value - self.across.0) / (self.across.1 - self.across.0) * (RIGHT - LEFT)
    }

    pub fn y(&self, value: f64) -> f64 {
        let share = (value - self.up.0) / (self.up.1 - self.up.0);
        self.bottom() - share * self.height
    }

    pub fn at(&self, across: f64, up: f64) -> Point {
        (self.x(across), self.y(up))
    }

    pub fn bottom(&self) -> f64 {
        self.top + self.height
    }

    pub fn border(&self, svg: &mut Svg) {
        let style = format!(r#"fill="none" stroke="{GREY}""#);
        svg.rect((LEFT, self.top), (RIGHT - LEFT, self.height), &style);
    }

    /// A bar from the bottom up, with its width and colour.
    pub fn bar(&self, svg: &mut Svg, across: f64, up: f64, (width, colour): (f64, &str)) {
        let (middle, top) = self.at(across, up);
        if up > 0.0 {
            let size = (width, self.bottom() - top);
            svg.rect((middle - width / 2.0, top), size, &fill(colour));
        }
    }

    /// A grey stretch, where the film is not heard.
    pub fn shade(&self, svg: &mut Svg, (begin, end): (f64, f64)) {
        let size = (self.x(end) - self.x(begin), self.height);
        let style = r##"fill="#000000" fill-opacity="0.06""##;
        svg.rect((self.x(begin), self.top), size, style);
    }

    /// A dotted line from top to bottom.
    fn dotted(&self, svg: &mut Svg, across: f64) {
        let x = self.x(across);
        let style = stroke(INK, 1.4) + r#" stroke-dasharray="2 3""#;
        svg.line((x, self.top), (x, self.bottom()), &style);
    }

    /// Marks at the left side, each with its words.
    pub fn marks(&self, svg: &mut Svg, marks: &[(f64, &str)], left: f64) {
        for &(value, words) in marks {
            let y = self.y(value);
            svg.line((left - 5.0, y), (left, y), &stroke(GREY, 1.0));
            svg.words((left - 9.0, y + 4.0), PLAIN.to_the_left(), words);
        }
    }

    /// A dashed line at a threshold, with words at its left end.
    pub fn threshold(&self, svg: &mut Svg, value: f64, colour: &str, words: &str) {
        let style = stroke(colour, 1.5) + r#" stroke-dasharray="6 4""#;
        svg.line((LEFT, self.y(value)), (RIGHT, self.y(value)), &style);
        let above = (LEFT + 6.0, self.y(value) - 5.0);
        svg.words(above, PLAIN, words);
    }
}

/// What a mark of a legend looks like.
pub enum Mark {
    Line(&'static str, f64),
    Dot(&'static str),
    Ring(&'static str),
    Square(&'static str),
}

/// A panel's name, and what its marks mean, on one line.
pub fn heading(svg: &mut Svg, y: f64, name: &str, legend: &[(Mark, &str)]) {
    svg.words((20.0, y), PLAIN.sized(15).bold(), name);
    let mut x = 60.0 + 8.8 * name.len() as f64;
    for (mark, words) in legend {
        sample(svg, (x, y - 5.0), mark);
        svg.words((x + 24.0, y), PLAIN, words);
        x += 24.0 + 7.0 * words.len() as f64 + 22.0;
    }
}

/// The picture's name, and what it shows in two lines.
pub fn head(svg: &mut Svg, title: &str, sentences: [&str; 2]) {
    svg.words((20.0, 34.0), PLAIN.sized(22).bold(), title);
    for (line, sentence) in sentences.into_iter().enumerate() {
        let below = (20.0, 60.0 + 20.0 * line as f64);
        svg.words(below, PLAIN.sized(15), sentence);
    }
}

/// What goes on beside the panels: from where, up to where, in which colour.
pub struct Stretch {
    pub name: &'static str,
    pub begin: f64,
    pub end: f64,
    pub colour: &'static str,
}

pub fn strip(svg: &mut Svg, panel: &Panel, name: &str, stretches: &[Stretch]) {
    let baseline = panel.top + 17.0;
    svg.words((LEFT - 9.0, baseline), PLAIN.bold().to_the_left(), name);
    for stretch in stretches {
        let (left, right) = (panel.x(stretch.begin), panel.x(stretch.end));
        let style = format!(r#"fill="{}" stroke="{GREY}""#, stretch.colour);
        svg.rect((left, panel.top), (right - left, panel.height), &style);
        let middle = ((left + right) / 2.0, baseline);
        svg.words(middle, PLAIN.centred(), stretch.name);
    }
}

/// A line through panels, with words beside it in the first one.
pub fn turn(svg: &mut Svg, panels: &[&Panel], across: f64, words: &str, set: Type) {
    for panel in panels {
        panel.dotted(svg, across);
    }
    let beside = if set.anchor == "end" { -5.0 } else { 5.0 };
    let at = (panels[0].x(across) + beside, panels[0].bottom() - 5.0);
    svg.words(at, set.bold(), words);
}

/// Numbers below the last panel, and what they are.
pub fn axis(svg: &mut Svg, panel: &Panel, numbers: &[u32], name: &str) {
    let y = panel.bottom();
    for &number in numbers {
        let x = panel.x(f64::from(number));
        svg.line((x, y), (x, y + 5.0), &stroke(GREY, 1.0));
        svg.words((x, y + 20.0), PLAIN.centred(), &number.to_string());
    }
    let middle = ((LEFT + RIGHT) / 2.0, y + 42.0);
    svg.words(middle, PLAIN.sized(14).bold().centred(), name);
}

fn sample(svg: &mut Svg, (x, y): Point, mark: &Mark) {
    match mark {
        Mark::Line(colour, width) => {
            svg.line((x, y), (x + 18.0, y), &stroke(colour, *width));
        }
        Mark::Dot(colour) => svg.dot((x + 9.0, y), 4.0, &fill(colour)),
        Mark::Ring(colour) => svg.dot((x + 9.0, y), 2.5, &ring(colour)),
        Mark::Square(colour) => square(svg, (x + 9.0, y), colour),
    }
}

pub fn ring(colour: &str) -> String {
    format!(r##"fill="#FFFFFF" stroke="{colour}" stroke-width="1.3""##)
}

pub fn square(svg: &mut Svg, (x, y): Point, colour: &str) {
    svg.rect((x - 4.0, y - 4.0), (8.0, 8.0), &fill(colour));
}
