//! Shapes and words of a picture, as SVG text.

use std::fmt::Write;

// Colours that stay apart for every kind of colour vision (Okabe and Ito's).
pub const BLUE: &str = "#0072B2";
pub const SKY: &str = "#56B4E9";
pub const ORANGE: &str = "#E69F00";
pub const RED: &str = "#D55E00";
pub const PURPLE: &str = "#CC79A7";
pub const GREY: &str = "#767676";
pub const PALE: &str = "#D9D9D9";
pub const INK: &str = "#1F1F1F";

/// Attributes of a shape that is filled.
pub fn fill(colour: &str) -> String {
    format!(r#"fill="{colour}""#)
}

/// Attributes of a line.
pub fn stroke(colour: &str, width: f64) -> String {
    format!(r#"stroke="{colour}" stroke-width="{width}""#)
}

pub type Point = (f64, f64);

pub struct Svg {
    width: f64,
    height: f64,
    body: String,
}

/// How words are set.
#[derive(Clone, Copy)]
pub struct Type {
    pub size: u32,
    pub anchor: &'static str,
    pub weight: &'static str,
}

pub const PLAIN: Type = Type {
    size: 13,
    anchor: "start",
    weight: "normal",
};

impl Type {
    pub fn bold(self) -> Self {
        Self {
            weight: "bold",
            ..self
        }
    }

    pub fn sized(self, size: u32) -> Self {
        Self { size, ..self }
    }

    pub fn centred(self) -> Self {
        Self {
            anchor: "middle",
            ..self
        }
    }

    pub fn to_the_left(self) -> Self {
        Self {
            anchor: "end",
            ..self
        }
    }
}

impl Svg {
    pub fn new(width: f64, height: f64) -> Self {
        Self {
            width,
            height,
            body: String::new(),
        }
    }

    /// Of a shape, `style` is SVG's own attributes.
    pub fn rect(&mut self, (x, y): Point, (width, height): Point, style: &str) {
        self.add(&format!(
            r#"<rect x="{x:.1}" y="{y:.1}" width="{width:.1}" height="{height:.1}" {style}/>"#
        ));
    }

    pub fn line(&mut self, (x1, y1): Point, (x2, y2): Point, style: &str) {
        self.add(&format!(
            r#"<line x1="{x1:.1}" y1="{y1:.1}" x2="{x2:.1}" y2="{y2:.1}" {style}/>"#
        ));
    }

    /// A line through all points.
    pub fn path(&mut self, points: &[Point], style: &str) {
        let mut text = String::new();
        for (x, y) in points {
            let _ = write!(text, "{x:.1},{y:.1} ");
        }
        self.add(&format!(
            r#"<polyline points="{}" fill="none" {style}/>"#,
            text.trim_end()
        ));
    }

    pub fn dot(&mut self, (x, y): Point, radius: f64, style: &str) {
        self.add(&format!(
            r#"<circle cx="{x:.1}" cy="{y:.1}" r="{radius:.1}" {style}/>"#
        ));
    }

    pub fn words(&mut self, (x, y): Point, set: Type, words: &str) {
        let Type {
            size,
            anchor,
            weight,
        } = set;
        let words = escaped(words);
        self.add(&format!(
            r#"<text x="{x:.1}" y="{y:.1}" font-size="{size}" fill="{INK}" text-anchor="{anchor}" font-weight="{weight}">{words}</text>"#
        ));
    }

    fn add(&mut self, element: &str) {
        self.body.push_str(element);
        self.body.push('\n');
    }

    /// The whole file. The background is white, so that it is read on a dark page too.
    pub fn finish(self, title: &str) -> String {
        let Self {
            width,
            height,
            body,
        } = self;
        let title = escaped(title);
        format!(
            "<svg xmlns=\"http://www.w3.org/2000/svg\" width=\"{width}\" height=\"{height}\" \
             viewBox=\"0 0 {width} {height}\" font-family=\"Helvetica, Arial, 'DejaVu Sans', sans-serif\">\n\
             <title>{title}</title>\n\
             <rect width=\"{width}\" height=\"{height}\" fill=\"#FFFFFF\"/>\n{body}</svg>\n"
        )
    }
}

fn escaped(words: &str) -> String {
    words
        .replace('&', "&amp;")
        .replace('<', "&lt;")
        .replace('>', "&gt;")
}
