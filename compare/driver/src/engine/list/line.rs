//! A line: 12 words that make an opening or a submission, then the three answers.

use std::fmt::Write;

pub type Line = [u64; 15];

/// Where a line has the state's digest.
pub const STATE: usize = 13;

// ---- faults, as faults.rt of engine_replay numbers them; 1 to 6 are buffers lent one short with a
// window

pub const FEWER_ENERGIES: usize = 7;
pub const FEWER_VALUES: usize = 8;
pub const BANDS_65: usize = 9;
pub const NO_BANDS: usize = 10;
pub const BAD_VALUE: usize = 11;
pub const LATE_TIME: usize = 12;
pub const MORE_BANDS: usize = 13;

#[derive(Clone, Debug)]
pub struct Head {
    pub seed: u64,
    pub hop: f64,
    /// The reference repeats every so many frames.
    pub period: usize,
    pub bands: usize,
    pub frames: usize,
    pub start: f64,
    pub readiness: f64,
    pub tracking: f64,
    pub fraction: f64,
    pub fault: usize,
    pub at: usize,
}

#[derive(Clone, Debug)]
pub struct Step {
    pub begin: f64,
    pub frames: usize,
    /// The reference's frame at which the window begins.
    pub from: usize,
    /// The window's frames from `since` to `until` are heard.
    pub since: usize,
    pub until: usize,
    /// Which other sound, and how many parts of 64 of it are heard too.
    pub noise: u64,
    pub energy: f64,
    pub loud: usize,
    pub clock: f64,
    pub fault: usize,
    pub at: usize,
}

impl Head {
    pub fn said_bands(&self) -> usize {
        said_bands(self.fault, self.bands)
    }

    pub fn line(&self, answers: [u64; 3]) -> Line {
        let [answer, state, index] = answers;
        [
            0,
            self.seed,
            self.hop.to_bits(),
            self.period as u64,
            self.bands as u64,
            self.frames as u64,
            self.start.to_bits(),
            self.readiness.to_bits(),
            self.tracking.to_bits(),
            self.fraction.to_bits(),
            self.fault as u64,
            self.at as u64,
            answer,
            state,
            index,
        ]
    }
}

impl Step {
    /// The bands that the window has.
    pub fn made_bands(&self, bands: usize) -> usize {
        if self.fault == MORE_BANDS {
            bands + 1
        } else {
            bands
        }
    }

    pub fn line(&self, answers: [u64; 3]) -> Line {
        let [answer, state, snapshot] = answers;
        [
            1,
            self.begin.to_bits(),
            self.frames as u64,
            self.from as u64,
            self.since as u64,
            self.until as u64,
            self.noise,
            self.energy.to_bits(),
            self.loud as u64,
            self.clock.to_bits(),
            self.fault as u64,
            self.at as u64,
            answer,
            state,
            snapshot,
        ]
    }
}

/// The bands that are said.
pub fn said_bands(fault: usize, bands: usize) -> usize {
    match fault {
        BANDS_65 => 65,
        NO_BANDS => 0,
        _ => bands,
    }
}

pub fn spoil(fault: usize, at: usize, hop: f64, times: &mut [f64], values: &mut [f32]) {
    match fault {
        BAD_VALUE => values[at] = -1.0,
        LATE_TIME => times[at] += hop * 0.3,
        _ => {}
    }
}

pub fn text(line: &Line) -> String {
    let mut text = String::new();
    for (number, word) in line.iter().enumerate() {
        let gap = if number == 0 { "" } else { " " };
        write!(text, "{gap}{word:016x}").expect("a string takes all");
    }
    text + "\n"
}
