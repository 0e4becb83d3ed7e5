//! The port's calls, with all that they are lent, and what they may not touch.

use super::reading::Handed;
use super::session::{lent_index, Opening};
use super::words;
use crate::sessions::session::Window;

// They are proved to read and write within the slices given, whatever is handed in.
unsafe extern "C" {
    fn kistovab_open(
        minimum_readiness_duration_ms: f64,
        tracking_query_duration_ms: f64,
        minimum_active_frame_energy_dbfs: f64,
        minimum_average_energy_dbfs: f64,
        minimum_active_frame_fraction: f64,
        hop_ms: f64,
        bands: usize,
        times: *const f64,
        times_len: usize,
        values: *const f32,
        values_len: usize,
        fine: *mut f32,
        fine_len: usize,
        coarse: *mut f32,
        coarse_len: usize,
        fine_energy: *mut f64,
        fine_energy_len: usize,
        coarse_energy: *mut f64,
        coarse_energy_len: usize,
        state: *mut u64,
        state_len: usize,
    ) -> u32;
    fn kistovab_submit(
        state: *mut u64,
        state_len: usize,
        fine: *const f32,
        fine_len: usize,
        coarse: *const f32,
        coarse_len: usize,
        fine_energy: *const f64,
        fine_energy_len: usize,
        coarse_energy: *const f64,
        coarse_energy_len: usize,
        bands: usize,
        times: *const f64,
        times_len: usize,
        energies: *const f64,
        energies_len: usize,
        values: *const f32,
        values_len: usize,
        clock_ms: f64,
        work32: *mut f32,
        work32_len: usize,
        work64: *mut f64,
        work64_len: usize,
        snapshot: *mut u64,
        snapshot_len: usize,
    ) -> u32;
    fn kistovab_support_age(state: *const u64, state_len: usize, age: *mut f64) -> u32;
    fn kistovab_keep(
        state: *const u64,
        state_len: usize,
        name: usize,
        store: *mut u64,
        store_len: usize,
    ) -> u32;
    fn kistovab_restore(
        state: *mut u64,
        state_len: usize,
        name: usize,
        store: *const u64,
        store_len: usize,
    ) -> u32;
    fn kistovab_state_words() -> usize;
    fn kistovab_snapshot_words() -> usize;
    fn kistovab_store_words() -> usize;
    fn kistovab_fine_length(frames: usize, bands: usize) -> usize;
    fn kistovab_coarse_length(frames: usize, bands: usize) -> usize;
    fn kistovab_fine_energy_length(frames: usize, bands: usize) -> usize;
    fn kistovab_coarse_energy_length(frames: usize, bands: usize) -> usize;
    fn kistovab_work32_length(frames: usize, bands: usize) -> usize;
    fn kistovab_work64_length(frames: usize, bands: usize, reference_frames: usize) -> usize;
}

pub const COMPUTED: u32 = 0;
pub const REREAD: u32 = 100;
pub const NO_AGE: u32 = 101;
pub const STORE_TOO_SHORT: u32 = 6;
pub const NAME_OUT_OF_RANGE: u32 = 14;
pub const NOTHING_KEPT: u32 = 15;
pub const WORDS_TOO_SHORT: u32 = 255;

/// What a buffer holds before it is lent, and what may not be written afterwards.
pub const OLD: f64 = 12_345.5;
pub const OLD_WORD: u64 = 0x5a5a_0000_1234_5678;

// ---- lengths

pub fn words() -> [usize; 3] {
    // SAFETY: they take nothing.
    unsafe {
        [
            kistovab_state_words(),
            kistovab_snapshot_words(),
            kistovab_store_words(),
        ]
    }
}

pub fn index(frames: usize, bands: usize) -> [usize; 4] {
    // SAFETY: they take numbers.
    unsafe {
        [
            kistovab_fine_length(frames, bands),
            kistovab_coarse_length(frames, bands),
            kistovab_fine_energy_length(frames, bands),
            kistovab_coarse_energy_length(frames, bands),
        ]
    }
}

pub fn work(frames: usize, bands: usize, reference_frames: usize) -> [usize; 2] {
    // SAFETY: they take numbers.
    unsafe {
        [
            kistovab_work32_length(frames, bands),
            kistovab_work64_length(frames, bands, reference_frames),
        ]
    }
}

// ---- the index

#[derive(Clone, Debug)]
pub struct Index {
    pub fine: Vec<f32>,
    pub coarse: Vec<f32>,
    pub fine_energy: Vec<f64>,
    pub coarse_energy: Vec<f64>,
}

impl Index {
    pub fn new(lengths: [usize; 4]) -> Self {
        Self {
            fine: vec![OLD as f32; lengths[0]],
            coarse: vec![OLD as f32; lengths[1]],
            fine_energy: vec![OLD; lengths[2]],
            coarse_energy: vec![OLD; lengths[3]],
        }
    }

    pub fn lengths(&self) -> [usize; 4] {
        [
            self.fine.len(),
            self.coarse.len(),
            self.fine_energy.len(),
            self.coarse_energy.len(),
        ]
    }

    /// Bit for bit.
    pub fn is(&self, other: &Self) -> bool {
        let narrow = |a: &[f32], b: &[f32]| {
            a.len() == b.len() && a.iter().zip(b).all(|(x, y)| x.to_bits() == y.to_bits())
        };
        narrow(&self.fine, &other.fine)
            && narrow(&self.coarse, &other.coarse)
            && equal(&self.fine_energy, &other.fine_energy)
            && equal(&self.coarse_energy, &other.coarse_energy)
    }
}

fn equal(a: &[f64], b: &[f64]) -> bool {
    a.len() == b.len() && a.iter().zip(b).all(|(x, y)| x.to_bits() == y.to_bits())
}

// ---- the calls

pub fn open(opening: &Opening, index: &mut Index, state: &mut [u64]) -> u32 {
    let configuration = &opening.configuration;
    let reference = &opening.reference;
    // SAFETY: every pointer goes with its slice's length.
    unsafe {
        kistovab_open(
            configuration.minimum_readiness_duration_ms,
            configuration.tracking_query_duration_ms,
            configuration.minimum_active_frame_energy_dbfs,
            configuration.minimum_average_energy_dbfs,
            configuration.minimum_active_frame_fraction,
            opening.hop,
            reference.bands,
            reference.times.as_ptr(),
            reference.times.len(),
            reference.values.as_ptr(),
            reference.values.len(),
            index.fine.as_mut_ptr(),
            index.fine.len(),
            index.coarse.as_mut_ptr(),
            index.coarse.len(),
            index.fine_energy.as_mut_ptr(),
            index.fine_energy.len(),
            index.coarse_energy.as_mut_ptr(),
            index.coarse_energy.len(),
            state.as_mut_ptr(),
            state.len(),
        )
    }
}

/// The index is lent as far as `lengths` say.
pub fn submit(
    state: &mut [u64],
    index: &Index,
    lengths: [usize; 4],
    window: &Window,
    clock: f64,
    work: (&mut [f32], &mut [f64]),
    snapshot: &mut [u64],
) -> u32 {
    let fine = &index.fine[..lengths[0]];
    let coarse = &index.coarse[..lengths[1]];
    let fine_energy = &index.fine_energy[..lengths[2]];
    let coarse_energy = &index.coarse_energy[..lengths[3]];
    let (work32, work64) = work;
    // SAFETY: every pointer goes with its slice's length.
    unsafe {
        kistovab_submit(
            state.as_mut_ptr(),
            state.len(),
            fine.as_ptr(),
            fine.len(),
            coarse.as_ptr(),
            coarse.len(),
            fine_energy.as_ptr(),
            fine_energy.len(),
            coarse_energy.as_ptr(),
            coarse_energy.len(),
            window.bands,
            window.times.as_ptr(),
            window.times.len(),
            window.energies.as_ptr(),
            window.energies.len(),
            window.values.as_ptr(),
            window.values.len(),
            clock,
            work32.as_mut_ptr(),
            work32.len(),
            work64.as_mut_ptr(),
            work64.len(),
            snapshot.as_mut_ptr(),
            snapshot.len(),
        )
    }
}

/// The answer, and what then stands where the age is written.
pub fn support_age(state: &[u64], before: f64) -> (u32, f64) {
    let mut age = before;
    // SAFETY: the pointer goes with its slice's length; the age is one number.
    let code = unsafe { kistovab_support_age(state.as_ptr(), state.len(), &mut age) };
    (code, age)
}

pub fn keep(state: &[u64], name: usize, store: &mut [u64]) -> u32 {
    // SAFETY: every pointer goes with its slice's length.
    unsafe {
        kistovab_keep(
            state.as_ptr(),
            state.len(),
            name,
            store.as_mut_ptr(),
            store.len(),
        )
    }
}

pub fn restore(state: &mut [u64], name: usize, store: &[u64]) -> u32 {
    // SAFETY: every pointer goes with its slice's length.
    unsafe {
        kistovab_restore(
            state.as_mut_ptr(),
            state.len(),
            name,
            store.as_ptr(),
            store.len(),
        )
    }
}

// ---- a side of a session

pub struct Ours {
    pub state: Vec<u64>,
    pub index: Index,
    /// As opening left it.
    opened: Index,
    /// How much longer every buffer is than it need be.
    tail: usize,
    work32: Vec<f32>,
    work64: Vec<f64>,
    snapshot: Vec<u64>,
}

/// What comes of a submission: the answer's number, and the snapshot's words where it is answered.
pub struct Came {
    pub code: u32,
    pub snapshot: Option<Vec<u64>>,
}

impl Ours {
    /// The answer's number; what opening wrote is left for the caller to look at.
    pub fn open(opening: &Opening, tail: usize) -> (u32, Self) {
        let mut index = Index::new(lent_index(opening, tail));
        let mut state = vec![OLD_WORD; words::STATE + tail];
        let code = open(opening, &mut index, &mut state);
        let side = Self {
            state,
            opened: index.clone(),
            index,
            tail,
            work32: Vec::new(),
            work64: Vec::new(),
            snapshot: Vec::new(),
        };
        (code, side)
    }

    /// The state's words without the tail.
    pub fn words(&self) -> &[u64] {
        &self.state[..words::STATE]
    }

    pub fn set(&mut self, state: &[u64]) {
        self.state[..words::STATE].copy_from_slice(state);
    }

    /// Puts another index in place of the opened one.
    pub fn alter(&mut self, index: Index) {
        self.opened = index.clone();
        self.index = index;
    }

    /// Whether the words behind the state are as they were.
    pub fn keeps_tail(&self) -> bool {
        self.state[words::STATE..].iter().all(|&w| w == OLD_WORD)
    }

    pub fn submit(&mut self, handed: &Handed) -> Result<Came, String> {
        self.lend(handed.work);
        let before = self.state.clone();
        let code = submit(
            &mut self.state,
            &self.index,
            handed.index,
            handed.window,
            handed.clock,
            (&mut self.work32, &mut self.work64),
            &mut self.snapshot,
        );
        self.kept(code, &before)?;
        let answered = code == COMPUTED || code == REREAD;
        let snapshot = answered.then(|| self.snapshot[..words::SNAPSHOT].to_vec());
        Ok(Came { code, snapshot })
    }

    /// Working buffers are full of NaN, whatever the last call left in them.
    fn lend(&mut self, work: [usize; 2]) {
        self.work32.clear();
        self.work32.resize(work[0], f32::NAN);
        self.work64.clear();
        self.work64.resize(work[1], f64::NAN);
        self.snapshot.clear();
        self.snapshot.resize(words::SNAPSHOT + self.tail, OLD_WORD);
    }

    /// What must be as it was, by the answer.
    fn kept(&self, code: u32, before: &[u64]) -> Result<(), String> {
        let old = |words: &[u64]| words.iter().all(|&word| word == OLD_WORD);
        let held = |what: &str, kept: bool| {
            if kept {
                Ok(())
            } else {
                Err(format!("answer {code} changed {what}"))
            }
        };
        held("the index", self.index.is(&self.opened))?;
        held("the state's tail", self.keeps_tail())?;
        held(
            "the snapshot's tail",
            old(&self.snapshot[words::SNAPSHOT..]),
        )?;
        if code != COMPUTED {
            held("the state", self.state == before)?;
        }
        if code != COMPUTED && code != REREAD {
            held("the snapshot", old(&self.snapshot))?;
            let nan32 = f32::NAN.to_bits();
            let nan64 = f64::NAN.to_bits();
            let narrow = self.work32.iter().all(|x| x.to_bits() == nan32);
            let wide = self.work64.iter().all(|x| x.to_bits() == nan64);
            held("a working buffer", narrow && wide)?;
        }
        Ok(())
    }
}
