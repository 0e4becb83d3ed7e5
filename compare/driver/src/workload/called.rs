//! The call with all that it is lent: slices in the midst of longer buffers, all full of an old
//! number, so that whatever is written shows.

use super::ours;
use super::reading::Input;
use crate::sessions::session::Window;
use crate::value::Value;
use std::ops::Range;

/// No time that is compared here, no energy and no value of a load.
const OLD: f64 = -12_345.5;

/// How much of a buffer lies on either side of the slice.
const BESIDE: usize = 9;

struct Lent<V> {
    buffer: Vec<V>,
    old: V,
}

impl<V: Value> Lent<V> {
    fn new(length: usize, old: V) -> Self {
        Self {
            buffer: vec![old; length + 2 * BESIDE],
            old,
        }
    }

    fn range(&self) -> Range<usize> {
        BESIDE..self.buffer.len() - BESIDE
    }

    fn slice(&self) -> &[V] {
        &self.buffer[self.range()]
    }

    fn slice_mut(&mut self) -> &mut [V] {
        let range = self.range();
        &mut self.buffer[range]
    }

    fn is_old(&self, part: &[V]) -> bool {
        part.iter().all(|x| x.bits() == self.old.bits())
    }

    /// Whether nothing was written, within the slice or beside it.
    fn stays(&self) -> bool {
        self.is_old(&self.buffer)
    }

    /// What was written where it should not be, or where the slice is not as the row.
    fn difference(&self, name: &str, row: &[V]) -> Option<String> {
        let Range { start, end } = self.range();
        if !self.is_old(&self.buffer[..start]) || !self.is_old(&self.buffer[end..]) {
            return Some(format!("written beside the {name}"));
        }
        let differs = |(x, y): (&V, &V)| x.bits() != y.bits();
        let at = self.slice().iter().zip(row).position(differs)?;
        let (x, y) = (self.slice()[at].shown(), row[at].shown());
        Some(format!("{name}[{at}]: {x}, not {y}"))
    }
}

pub struct Called {
    pub code: u32,
    times: Lent<f64>,
    energies: Lent<f64>,
    values: Lent<f32>,
}

impl Called {
    pub fn new(input: &Input) -> Self {
        let mut times = Lent::new(input.times, OLD);
        let mut energies = Lent::new(input.energies, OLD);
        let mut values = Lent::new(input.values, OLD as f32);
        let code = ours::fill(
            input.seed,
            input.hop,
            input.bands,
            times.slice_mut(),
            energies.slice_mut(),
            values.slice_mut(),
        );
        Self {
            code,
            times,
            energies,
            values,
        }
    }

    /// What now stands in the slices.
    pub fn load(&self, bands: usize) -> Window {
        Window {
            bands,
            times: self.times.slice().to_vec(),
            energies: self.energies.slice().to_vec(),
            values: self.values.slice().to_vec(),
        }
    }

    /// What a refused call has written.
    pub fn written(&self) -> Vec<String> {
        let stays = [
            ("times", self.times.stays()),
            ("energies", self.energies.stays()),
            ("values", self.values.stays()),
        ];
        let written = stays.into_iter().filter(|(_, stays)| !stays);
        written
            .map(|(name, _)| format!("refused, and {name} are written"))
            .collect()
    }

    /// How what was filled differs from the load.
    pub fn differences(&self, load: &Window) -> Vec<String> {
        let parts = [
            self.times.difference("times", &load.times),
            self.energies.difference("energies", &load.energies),
            self.values.difference("values", &load.values),
        ];
        parts.into_iter().flatten().collect()
    }
}

#[cfg(test)]
mod tests {
    use super::*;

    fn lent(length: usize, slice: &[f64]) -> Lent<f64> {
        let mut lent = Lent::new(length, OLD);
        lent.slice_mut().copy_from_slice(slice);
        lent
    }

    #[test]
    fn what_is_written_shows() {
        assert!(lent(2, &[OLD; 2]).stays());
        assert!(!lent(2, &[OLD, 0.0]).stays());
        for at in [0, BESIDE - 1, BESIDE + 2, BESIDE + 2 + BESIDE - 1] {
            let mut lent = lent(2, &[OLD; 2]);
            lent.buffer[at] = 0.0;
            assert!(!lent.stays());
            assert!(lent.difference("times", &[OLD; 2]).is_some());
        }
    }

    #[test]
    fn a_row_is_told_by_its_bits() {
        let lent = lent(3, &[0.0, 1.0, 2.0]);
        assert_eq!(lent.difference("times", &[0.0, 1.0, 2.0]), None);
        let told = lent.difference("times", &[0.0, 1.0, 2.5]);
        assert!(told.is_some_and(|told| told.starts_with("times[2]: ")));
        assert!(lent.difference("times", &[-0.0, 1.0, 2.0]).is_some());
    }

    #[test]
    fn nothing_is_lent_between_old_numbers() {
        let lent = lent(0, &[]);
        assert!(lent.stays());
        assert_eq!(lent.difference("times", &[]), None);
    }
}
