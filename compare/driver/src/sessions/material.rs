//! What the sessions are made of: rows of sound, and windows of them.

use super::session::{Lent, Soundtrack, Submission, Window};

/// All values that occur: few, so that few logarithms are worked out.
const LEVELS: [f32; 8] = [0.0, 0.25, 0.5, 1.0, 1.5, 2.0, 3.0, 3.75];

/// Bands of equal length, by level.
#[derive(Clone)]
pub struct Rows(Vec<Vec<usize>>);

impl Rows {
    /// A digit from 0 to 7 for each frame.
    pub fn new(rows: &[&str]) -> Self {
        let levels = |row: &&str| row.bytes().map(|digit| usize::from(digit - b'0')).collect();
        Self(rows.iter().map(levels).collect())
    }

    fn bands(&self) -> usize {
        self.0.len()
    }

    fn frames(&self) -> usize {
        self.0[0].len()
    }

    fn values(&self) -> Vec<f32> {
        self.0
            .iter()
            .flatten()
            .map(|&level| LEVELS[level])
            .collect()
    }

    pub fn band(&self, band: usize) -> Self {
        Self(vec![self.0[band].clone()])
    }

    /// So many frames from one on.
    pub fn part(&self, from: usize, frames: usize) -> Self {
        let part = |row: &Vec<usize>| row[from..from + frames].to_vec();
        Self(self.0.iter().map(part).collect())
    }

    /// Every third frame two levels lower, so that a window is never quite the reference.
    pub fn worn(&self) -> Self {
        let lower = |(frame, level): (usize, &usize)| match frame % 3 {
            1 => level.saturating_sub(2),
            _ => *level,
        };
        let worn = |row: &Vec<usize>| row.iter().enumerate().map(lower).collect();
        Self(self.0.iter().map(worn).collect())
    }

    /// So many frames of this, then the other's.
    pub fn until(&self, frame: usize, other: &Self) -> Self {
        let both = self.0.iter().zip(&other.0);
        Self(
            both.map(|(a, b)| [&a[..frame], &b[frame..]].concat())
                .collect(),
        )
    }

    pub fn reference(&self, start: f64, hop: f64) -> Soundtrack {
        Soundtrack {
            bands: self.bands(),
            times: regular(start, hop, self.frames()),
            values: self.values(),
        }
    }

    /// Every sixth frame has an energy. The power of the others is 0, which is quick to work out.
    pub fn window(&self, start: f64, hop: f64) -> Window {
        let energy = |frame: usize| match frame % 6 {
            0 => -20.0 - frame as f64 / 2.0,
            _ => f64::NEG_INFINITY,
        };
        Window {
            bands: self.bands(),
            times: regular(start, hop, self.frames()),
            energies: (0..self.frames()).map(energy).collect(),
            values: self.values(),
        }
    }
}

impl Window {
    pub fn submitted(self, clock: f64, shows: &'static str) -> Submission {
        Submission {
            shows,
            window: self,
            clock,
            lent: Lent::Enough,
        }
    }
}

impl Submission {
    pub fn lent(mut self, lent: Lent) -> Self {
        self.lent = lent;
        self
    }
}

fn regular(start: f64, hop: f64, frames: usize) -> Vec<f64> {
    (0..frames).map(|i| start + i as f64 * hop).collect()
}
