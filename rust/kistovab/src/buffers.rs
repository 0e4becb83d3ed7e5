//! What the library is lent: frames as flat slices, the index, working memory.

use crate::ffi;
use crate::types::FeatureFrame;

/// Frames as the library takes them: values band after band.
#[derive(Clone, Debug, Default)]
pub struct Flat {
    pub bands: usize,
    pub times: Vec<f64>,
    pub energies: Vec<f64>,
    pub values: Vec<f32>,
}

impl Flat {
    /// Room for so many frames of so many bands.
    pub fn for_frames(frames: usize, bands: usize) -> Self {
        Self {
            bands,
            times: vec![0.0; frames],
            energies: vec![0.0; frames],
            values: vec![0.0; bands * frames],
        }
    }

    /// Takes over frames that have `bands` values each.
    pub fn fill(&mut self, frames: &[FeatureFrame], bands: usize) {
        self.bands = bands;
        self.times.clear();
        self.times.extend(frames.iter().map(|f| f.recorded_time_ms));
        self.energies.clear();
        self.energies.extend(frames.iter().map(|f| f.energy_dbfs));
        self.values.clear();
        // 0 where there are more frames or bands than the library takes: the call is refused before
        // it would look at values.
        let count = ffi::fine_length(frames.len(), bands);
        if count > 0 {
            self.values.reserve(count);
            for band in 0..bands {
                self.values.extend(frames.iter().map(|f| f.pcen_mel[band]));
            }
        }
    }

    /// The slices as frames again.
    pub fn frames(&self) -> Vec<FeatureFrame> {
        let count = self.times.len();
        let frame = |number: usize| FeatureFrame {
            recorded_time_ms: self.times[number],
            energy_dbfs: self.energies[number],
            pcen_mel: (0..self.bands)
                .map(|band| self.values[band * count + number])
                .collect(),
        };
        (0..count).map(frame).collect()
    }
}

/// How many bands every frame has; 0 where frames differ, which no index takes.
pub fn common_bands(frames: &[FeatureFrame]) -> usize {
    let bands = frames.first().map_or(0, |frame| frame.pcen_mel.len());
    let same = frames.iter().all(|frame| frame.pcen_mel.len() == bands);
    if same {
        bands
    } else {
        0
    }
}

/// What opening makes of a reference and searches read.
#[derive(Clone, Debug, Default)]
pub struct Index {
    pub fine: Vec<f32>,
    pub coarse: Vec<f32>,
    pub fine_energy: Vec<f64>,
    pub coarse_energy: Vec<f64>,
}

impl Index {
    /// Room for the index of a reference of that size.
    pub fn for_reference(frames: usize, bands: usize) -> Self {
        Self {
            fine: vec![0.0; ffi::fine_length(frames, bands)],
            coarse: vec![0.0; ffi::coarse_length(frames, bands)],
            fine_energy: vec![0.0; ffi::fine_energy_length(frames, bands)],
            coarse_energy: vec![0.0; ffi::coarse_energy_length(frames, bands)],
        }
    }
}

/// Working memory. It only grows, so that a window no larger than those before allocates nothing.
#[derive(Clone, Debug, Default)]
pub struct Work {
    pub narrow: Vec<f32>,
    pub wide: Vec<f64>,
}

impl Work {
    pub fn fit(&mut self, frames: usize, bands: usize, reference_frames: usize) {
        let narrow = ffi::work32_length(frames, bands);
        let wide = ffi::work64_length(frames, bands, reference_frames);
        self.narrow.resize(narrow.max(self.narrow.len()), 0.0);
        self.wide.resize(wide.max(self.wide.len()), 0.0);
    }
}

#[cfg(test)]
mod tests {
    use super::*;

    fn frame(recorded_time_ms: f64, values: &[f32]) -> FeatureFrame {
        FeatureFrame {
            recorded_time_ms,
            energy_dbfs: -recorded_time_ms,
            pcen_mel: values.to_vec(),
        }
    }

    #[test]
    fn frames_become_slices_band_after_band() {
        let mut flat = Flat::default();
        let three = [
            frame(1.0, &[10.0, 20.0]),
            frame(2.0, &[11.0, 21.0]),
            frame(3.0, &[12.0, 22.0]),
        ];
        flat.fill(&three, 2);
        assert_eq!(flat.bands, 2);
        assert_eq!(flat.times, [1.0, 2.0, 3.0]);
        assert_eq!(flat.energies, [-1.0, -2.0, -3.0]);
        assert_eq!(flat.values, [10.0, 11.0, 12.0, 20.0, 21.0, 22.0]);
        assert_eq!(flat.frames(), three);
        flat.fill(&[frame(9.0, &[5.0])], 1);
        assert_eq!((flat.times, flat.values), (vec![9.0], vec![5.0]));
    }

    #[test]
    fn there_is_room_for_frames_without_bands() {
        let bare = Flat::for_frames(2, 0).frames();
        assert_eq!(bare, vec![frame(0.0, &[]); 2]);
        assert_eq!(Flat::for_frames(0, 2).frames(), []);
    }

    #[test]
    fn no_values_are_copied_that_would_be_refused() {
        let mut flat = Flat::default();
        flat.fill(&[], 0);
        assert_eq!((flat.times.len(), flat.values.len()), (0, 0));
        flat.fill(&[frame(0.0, &[1.0; 65])], 65);
        assert_eq!((flat.bands, flat.values.len()), (65, 0));
        let long: Vec<_> = (0..65_536).map(|n| frame(n as f64, &[1.0])).collect();
        flat.fill(&long, 1);
        assert_eq!((flat.times.len(), flat.values.len()), (65_536, 0));
    }

    #[test]
    fn bands_are_common_to_all_frames_or_none() {
        let (one, two) = (frame(0.0, &[1.0]), frame(0.0, &[1.0, 2.0]));
        assert_eq!(common_bands(&[]), 0);
        assert_eq!(common_bands(&[two.clone(), two.clone()]), 2);
        assert_eq!(common_bands(&[two.clone(), one.clone(), two.clone()]), 0);
        // As many values as frames × bands, but not in each.
        let three = frame(0.0, &[1.0, 2.0, 3.0]);
        assert_eq!(common_bands(&[two, one, three]), 0);
    }

    #[test]
    fn working_memory_only_grows() {
        let mut work = Work::default();
        work.fit(100, 3, 700);
        let lengths = (work.narrow.len(), work.wide.len());
        assert_eq!(lengths, (600, 1_609));
        work.fit(50, 2, 700);
        assert_eq!((work.narrow.len(), work.wide.len()), lengths);
        work.fit(2_000, 3, 700);
        assert_eq!((work.narrow.len(), work.wide.len()), lengths);
    }
}
