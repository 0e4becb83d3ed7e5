//! A listener: what is heard of a reference, and when, as windows of a session.

use super::sound::{noise, sound, Sound};
use crate::engine::session::{Lent, Opening, Session, Submission};
use crate::random::Random;
use crate::sessions::session::{Soundtrack, Window};
use sonalign::types::Configuration;

pub struct Scene {
    pub random: Random,
    pub opening: Opening,
    /// How many frames a window has.
    pub frames: usize,
    /// Where the window to come ends.
    pub now: f64,
    /// Reference time less recorded time of what is heard.
    pub offset: f64,
    /// How much noise is heard with it.
    pub dirt: f32,
    pub gain: f32,
    /// The energy of a frame.
    pub energy: f64,
    /// Where the last window that was not refused ended.
    last: f64,
    clock: f64,
    submissions: Vec<Submission>,
}

/// The 250 ms in frames, at least 1.
pub fn radius(hop: f64) -> usize {
    (250.0 / hop).round().max(1.0) as usize
}

/// The fewest frames that are searched.
pub fn fewest(hop: f64) -> usize {
    2 * radius(hop) + 17
}

/// Frames that last so long.
pub fn lasting(ms: f64, hop: f64) -> usize {
    (ms / hop).ceil() as usize + 1
}

pub fn regular(start: f64, hop: f64, frames: usize) -> Vec<f64> {
    (0..frames).map(|i| start + i as f64 * hop).collect()
}

/// A configuration under which a window of so many frames is ready.
pub fn ready(hop: f64, frames: usize) -> Configuration {
    let duration = (frames - 1) as f64 * hop;
    Configuration {
        minimum_readiness_duration_ms: duration.min(2_500.0),
        tracking_query_duration_ms: (duration * 0.75).min(2_000.0),
        ..Configuration::default()
    }
}

pub fn reference(
    random: &mut Random,
    kind: Sound,
    hop: f64,
    start: f64,
    bands: usize,
    frames: usize,
) -> Soundtrack {
    Soundtrack {
        bands,
        times: regular(start, hop, frames),
        values: sound(random, kind, bands, frames),
    }
}

impl Scene {
    /// Hears the reference from its frame `place` on.
    pub fn new(
        mut random: Random,
        hop: f64,
        configuration: Configuration,
        reference: Soundtrack,
        frames: usize,
        begin: f64,
        place: f64,
    ) -> Self {
        let now = begin + (frames - 1) as f64 * hop;
        let start = reference.times.first().copied().unwrap_or(0.0);
        let clock = (random.unit() - 0.25) * 1e4;
        Self {
            random,
            opening: Opening {
                configuration,
                hop,
                reference,
                short: None,
            },
            frames,
            now,
            offset: start + place * hop - begin,
            dirt: 0.0,
            gain: 1.0,
            energy: -20.0,
            last: now,
            clock,
            submissions: Vec::new(),
        }
    }

    pub fn done(self, family: &'static str) -> Session {
        Session {
            family,
            opening: self.opening,
            submissions: self.submissions,
        }
    }

    /// What was submitted so far.
    pub fn submitted(&self) -> Vec<Submission> {
        self.submissions.clone()
    }

    pub fn hop(&self) -> f64 {
        self.opening.hop
    }

    fn bands(&self) -> usize {
        self.opening.reference.bands
    }

    /// Moves what is heard to the reference's frame `place`, for a window that ends now.
    pub fn go_to(&mut self, place: f64) {
        let begin = self.now - (self.frames - 1) as f64 * self.hop();
        let start = self.opening.reference.times.first().copied();
        self.offset = start.unwrap_or(0.0) + place * self.hop() - begin;
    }

    pub fn is_past_the_end(&self) -> bool {
        let end = self.opening.reference.times.last().copied();
        end.is_none_or(|end| self.now + self.offset > end)
    }

    pub fn after(&mut self, ms: f64) -> &mut Self {
        self.now += ms;
        self
    }

    /// A window of so many frames that ends now, in which all is heard.
    pub fn heard(&mut self, frames: usize) -> Window {
        let begin = self.now - frames.saturating_sub(1) as f64 * self.hop();
        let times = regular(begin, self.hop(), frames);
        let values = self.heard_at(&times);
        Window {
            bands: self.bands(),
            energies: self.energies(frames),
            times,
            values,
        }
    }

    pub fn energies(&mut self, frames: usize) -> Vec<f64> {
        (0..frames)
            .map(|_| self.energy - self.random.unit() * 4.0)
            .collect()
    }

    /// Between two frames of the reference the sound is between theirs; beside it is noise.
    fn heard_at(&mut self, times: &[f64]) -> Vec<f32> {
        let (bands, hop) = (self.bands(), self.hop());
        let count = self.opening.reference.times.len();
        let start = self.opening.reference.times.first().copied().unwrap_or(0.0);
        let mut values = Vec::with_capacity(bands * times.len());
        for band in 0..bands {
            for time in times {
                let place = (time + self.offset - start) / hop;
                let (frame, part) = (place.floor(), place - place.floor());
                let at = |frame: f64| {
                    let inside = frame >= 0.0 && frame < count as f64;
                    inside.then(|| {
                        let at = band * count + frame as usize;
                        self.opening.reference.values.get(at).copied()
                    })?
                };
                let clean = match (at(frame), at(frame + 1.0)) {
                    (Some(value), _) if part == 0.0 => value,
                    (Some(left), Some(right)) => left * (1.0 - part as f32) + right * part as f32,
                    _ => noise(&mut self.random),
                };
                values.push(self.worn(clean));
            }
        }
        values
    }

    fn worn(&mut self, clean: f32) -> f32 {
        let mut value = clean * self.gain;
        if self.dirt > 0.0 {
            value += noise(&mut self.random) * self.dirt;
        }
        // An unsound reference is not what windows are refused for here.
        if value.is_finite() && value >= 0.0 {
            value
        } else {
            f32::MAX
        }
    }

    /// A window of other sound.
    pub fn strange(&mut self, frames: usize, kind: Sound) -> Window {
        let mut window = self.heard(frames);
        window.values = sound(&mut self.random, kind, window.bands, frames);
        window
    }

    /// A window whose frames `from` to `to` are of other sound.
    pub fn changed(&mut self, from: usize, to: usize) -> Window {
        let mut window = self.heard(self.frames);
        let frames = self.frames;
        for band in 0..window.bands {
            for frame in from.min(frames)..to.min(frames) {
                window.values[band * frames + frame] = noise(&mut self.random);
            }
        }
        window
    }

    /// The frames of the last so many ms.
    pub fn within(&self, ms: f64) -> usize {
        (ms / self.hop()).ceil() as usize
    }

    pub fn submit(&mut self, shows: &'static str, window: Window) {
        if let Some(&end) = window.times.last() {
            self.last = end;
        }
        self.lend(shows, window, Lent::Enough);
    }

    pub fn lend(&mut self, shows: &'static str, window: Window, lent: Lent) {
        self.clock += self.random.unit() * 300.0 - 20.0;
        let clock = self.clock;
        self.refused(shows, window, clock, lent);
    }

    pub fn refused(&mut self, shows: &'static str, window: Window, clock: f64, lent: Lent) {
        self.submissions.push(Submission {
            shows,
            window,
            clock,
            lent,
        });
    }

    pub fn last(&self) -> f64 {
        self.last
    }

    // ---- whole windows

    pub fn hear(&mut self) {
        let window = self.heard(self.frames);
        self.submit("heard", window);
    }

    pub fn miss(&mut self) {
        let window = self.strange(self.frames, Sound::Noise);
        self.submit("other sound", window);
    }

    /// The best peak stays, and a half fails.
    pub fn half(&mut self) {
        let window = self.changed(self.frames / 2, self.frames);
        self.submit("half heard", window);
    }

    /// The last second and the context behind it are of something else.
    pub fn late(&mut self) {
        let from = self.frames.saturating_sub(self.within(1_250.0));
        let window = self.changed(from, self.frames);
        self.submit("recent part not heard", window);
    }

    pub fn silence(&mut self) {
        let mut window = self.heard(self.frames);
        let energy = self.random.one_of(&[-120.0, f64::NEG_INFINITY, -63.0]);
        window.energies.fill(energy);
        self.submit("silence", window);
    }
}
