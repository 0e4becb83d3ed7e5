//! The matcher of the port, as crates/compare_exports hands it out.

use super::case::{Candidate, Frames};

// They are proved to read and write within the slices given, and to answer UNFIT where one is too
// short.
unsafe extern "C" {
    fn matcher_fill_index(
        fine: *mut f32,
        fine_len: usize,
        coarse: *mut f32,
        coarse_len: usize,
        fine_energy: *mut f64,
        fine_energy_len: usize,
        coarse_energy: *mut f64,
        coarse_energy_len: usize,
        bands: usize,
        hop: f64,
        times: *const f64,
        times_len: usize,
        values: *const f32,
        values_len: usize,
    ) -> usize;
    fn matcher_whole_search(
        fine: *const f32,
        fine_len: usize,
        coarse: *const f32,
        coarse_len: usize,
        fine_energy: *const f64,
        fine_energy_len: usize,
        coarse_energy: *const f64,
        coarse_energy_len: usize,
        reference_bands: usize,
        frames: usize,
        start: f64,
        hop: f64,
        bands: usize,
        times: *const f64,
        times_len: usize,
        values: *const f32,
        values_len: usize,
        work32: *mut f32,
        work32_len: usize,
        work64: *mut f64,
        work64_len: usize,
        out: *mut f64,
        out_len: usize,
    ) -> usize;
    fn matcher_local_search(
        fine: *const f32,
        fine_len: usize,
        fine_energy: *const f64,
        fine_energy_len: usize,
        reference_bands: usize,
        frames: usize,
        start: f64,
        hop: f64,
        bands: usize,
        times: *const f64,
        times_len: usize,
        values: *const f32,
        values_len: usize,
        lower: f64,
        upper: f64,
        work32: *mut f32,
        work32_len: usize,
        work64: *mut f64,
        work64_len: usize,
        out: *mut f64,
        out_len: usize,
    ) -> usize;
    fn matcher_margin(
        numbers: *const f64,
        numbers_len: usize,
        count: usize,
        out: *mut f64,
        out_len: usize,
    ) -> usize;
}

const UNFIT: usize = 255;
const REJECTED: usize = 0;
const FILLED: usize = 1;
const MOST: usize = 8;
const NUMBERS: usize = 5;

/// What every buffer holds before it is lent, and a tail afterwards.
pub const OLD: f64 = 12_345.5;

/// The four buffers of an index, with the counts that a search needs.
pub struct Index {
    pub fine: Vec<f32>,
    pub coarse: Vec<f32>,
    pub fine_energy: Vec<f64>,
    pub coarse_energy: Vec<f64>,
    bands: usize,
    frames: usize,
    start: f64,
    hop: f64,
}

impl Index {
    /// Buffers as long as document 01 asks, and `tail` more, not filled yet.
    pub fn empty(reference: &Frames, hop: f64, tail: usize) -> Self {
        let (bands, n) = (reference.bands, reference.len());
        Self {
            fine: vec![OLD as f32; bands * n + tail],
            coarse: vec![OLD as f32; bands * (n / 4) + tail],
            fine_energy: vec![OLD; bands * (n + 1) + tail],
            coarse_energy: vec![OLD; bands * (n / 4 + 1) + tail],
            bands,
            frames: n,
            start: reference.times.first().copied().unwrap_or(0.0),
            hop,
        }
    }

    /// Whether the reference was accepted. `values` are the reference's, band after band.
    pub fn fill(&mut self, times: &[f64], values: &[f32]) -> bool {
        // SAFETY: every pointer goes with its slice's length.
        let answer = unsafe {
            matcher_fill_index(
                self.fine.as_mut_ptr(),
                self.fine.len(),
                self.coarse.as_mut_ptr(),
                self.coarse.len(),
                self.fine_energy.as_mut_ptr(),
                self.fine_energy.len(),
                self.coarse_energy.as_mut_ptr(),
                self.coarse_energy.len(),
                self.bands,
                self.hop,
                times.as_ptr(),
                times.len(),
                values.as_ptr(),
                values.len(),
            )
        };
        match answer {
            REJECTED => false,
            FILLED => true,
            _ => panic!("the index buffers do not fit"),
        }
    }

    pub fn whole(&self, query: &mut Query) -> Vec<Candidate> {
        let mut out = [OLD; MOST * NUMBERS];
        // SAFETY: every pointer goes with its slice's length.
        let count = unsafe {
            matcher_whole_search(
                self.fine.as_ptr(),
                self.fine.len(),
                self.coarse.as_ptr(),
                self.coarse.len(),
                self.fine_energy.as_ptr(),
                self.fine_energy.len(),
                self.coarse_energy.as_ptr(),
                self.coarse_energy.len(),
                self.bands,
                self.frames,
                self.start,
                self.hop,
                query.bands,
                query.times.as_ptr(),
                query.times.len(),
                query.values.as_ptr(),
                query.values.len(),
                query.work32.as_mut_ptr(),
                query.work32.len(),
                query.work64.as_mut_ptr(),
                query.work64.len(),
                out.as_mut_ptr(),
                out.len(),
            )
        };
        candidates(count, &out)
    }

    pub fn local(&self, query: &mut Query, lower: f64, upper: f64) -> Vec<Candidate> {
        let mut out = [OLD; MOST * NUMBERS];
        // SAFETY: every pointer goes with its slice's length.
        let count = unsafe {
            matcher_local_search(
                self.fine.as_ptr(),
                self.fine.len(),
                self.fine_energy.as_ptr(),
                self.fine_energy.len(),
                self.bands,
                self.frames,
                self.start,
                self.hop,
                query.bands,
                query.times.as_ptr(),
                query.times.len(),
                query.values.as_ptr(),
                query.values.len(),
                lower,
                upper,
                query.work32.as_mut_ptr(),
                query.work32.len(),
                query.work64.as_mut_ptr(),
                query.work64.len(),
                out.as_mut_ptr(),
                out.len(),
            )
        };
        candidates(count, &out)
    }
}

/// A window with its working buffers, which hold garbage of the last search.
pub struct Query {
    bands: usize,
    times: Vec<f64>,
    values: Vec<f32>,
    work32: Vec<f32>,
    work64: Vec<f64>,
}

impl Query {
    /// Working buffers as document 01 asks, and `tail` more.
    pub fn new(window: &Frames, reference_frames: usize, tail: usize) -> Self {
        let (bands, n) = (window.bands, window.len());
        Self {
            bands,
            times: window.times.clone(),
            values: window.by_band(),
            work32: vec![f32::NAN; 2 * bands * n + tail],
            work64: vec![f64::NAN; 3 * bands * (n + 1) + reference_frames + tail],
        }
    }
}

/// The `count` candidates at the front; behind them stand zeros.
fn candidates(count: usize, numbers: &[f64]) -> Vec<Candidate> {
    assert!(count <= MOST, "the slices do not fit");
    let (listed, rest) = numbers.split_at(count * NUMBERS);
    assert!(rest.iter().all(|x| x.to_bits() == 0), "blank candidates");
    let candidate = |chunk: &[f64]| [chunk[0], chunk[1], chunk[2], chunk[3], chunk[4]];
    listed.chunks_exact(NUMBERS).map(candidate).collect()
}

/// The margin of candidates as a search hands them out.
pub fn margin(found: &[Candidate]) -> f64 {
    let mut numbers = found.concat();
    numbers.resize(MOST * NUMBERS, 0.0);
    let mut out = [OLD; 2];
    let answer = margin_of(&numbers, found.len(), &mut out);
    assert_eq!(answer, FILLED, "eight candidates at most");
    assert_eq!(out[1], OLD, "the tail stays");
    out[0]
}

/// Whether more candidates than eight, numbers that are too few and no room are answered so, with
/// nothing written.
pub fn refuses_margins() -> bool {
    let numbers = [1.0; MOST * NUMBERS];
    let unfit = |numbers: &[f64], count, room: usize| {
        let mut out = [OLD; 1];
        margin_of(numbers, count, &mut out[..room]) == UNFIT && out == [OLD]
    };
    unfit(&numbers, MOST + 1, 1)
        && unfit(&numbers, usize::MAX, 1)
        && unfit(&numbers[1..], 1, 1)
        && unfit(&numbers, 1, 0)
}

fn margin_of(numbers: &[f64], count: usize, out: &mut [f64]) -> usize {
    // SAFETY: every pointer goes with its slice's length.
    unsafe {
        matcher_margin(
            numbers.as_ptr(),
            numbers.len(),
            count,
            out.as_mut_ptr(),
            out.len(),
        )
    }
}
