//! One reference, one window and the searches of it, as both sides are given them.

/// Times, and values frame after frame, as the Rust has them.
#[derive(Clone, Debug)]
pub struct Frames {
    pub bands: usize,
    pub times: Vec<f64>,
    pub values: Vec<f32>,
}

impl Frames {
    /// Of values band after band, as the port has them.
    pub fn of_bands(bands: usize, times: Vec<f64>, values: &[f32]) -> Self {
        let frames = times.len();
        let mut flat = Vec::with_capacity(values.len());
        for frame in 0..frames {
            flat.extend((0..bands).map(|band| values[band * frames + frame]));
        }
        Self {
            bands,
            times,
            values: flat,
        }
    }

    pub fn len(&self) -> usize {
        self.times.len()
    }

    /// The values band after band, as the port has them.
    pub fn by_band(&self) -> Vec<f32> {
        let frames = self.len();
        let mut flat = Vec::with_capacity(self.values.len());
        for band in 0..self.bands {
            flat.extend((0..frames).map(|frame| self.values[frame * self.bands + band]));
        }
        flat
    }
}

#[derive(Clone, Debug)]
pub struct Case {
    pub hop: f64,
    pub reference: Frames,
    pub window: Frames,
    /// Offset ranges of local searches.
    pub ranges: Vec<(f64, f64)>,
}

/// A candidate's five numbers, in the order of the Rust's fields.
pub type Candidate = [f64; 5];

#[cfg(test)]
mod tests {
    use super::*;

    #[test]
    fn bands_become_frames_and_back() {
        let values = [1.0, 2.0, 3.0, 10.0, 20.0, 30.0];
        let frames = Frames::of_bands(2, vec![0.0, 20.0, 40.0], &values);
        assert_eq!(frames.values, [1.0, 10.0, 2.0, 20.0, 3.0, 30.0]);
        assert_eq!(frames.by_band(), values);
    }
}
