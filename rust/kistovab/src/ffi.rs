//! The calls of libkistovab.a, each behind a function that lends it slices. All of the crate's
//! unsafe code stands here.
//!
//! They are proved to read and write within the slices that they are lent, whatever those hold
//! (crates/kistovab/src/calls.rt), keep nothing of them and have no memory of their own, so that
//! they may be called from any thread.

#![allow(unsafe_code)]

use crate::buffers::{Flat, Index, Work};
use crate::types::Configuration;

// SAFETY: as crates/kistovab declares them; a slice is a pointer and a length.
unsafe extern "C" {
    fn kistovab_open(
        minimum_readiness_duration_ms: f64,
        tracking_query_duration_ms: f64,
        minimum_active_frame_energy_dbfs: f64,
        minimum_average_energy_dbfs: f64,
        minimum_active_frame_fraction: f64,
        hop_ms: f64,
        bands: usize,
        times: *const f64,
        times_len: usize,
        values: *const f32,
        values_len: usize,
        fine: *mut f32,
        fine_len: usize,
        coarse: *mut f32,
        coarse_len: usize,
        fine_energy: *mut f64,
        fine_energy_len: usize,
        coarse_energy: *mut f64,
        coarse_energy_len: usize,
        state: *mut u64,
        state_len: usize,
    ) -> u32;
    fn kistovab_submit(
        state: *mut u64,
        state_len: usize,
        fine: *const f32,
        fine_len: usize,
        coarse: *const f32,
        coarse_len: usize,
        fine_energy: *const f64,
        fine_energy_len: usize,
        coarse_energy: *const f64,
        coarse_energy_len: usize,
        bands: usize,
        times: *const f64,
        times_len: usize,
        energies: *const f64,
        energies_len: usize,
        values: *const f32,
        values_len: usize,
        clock_ms: f64,
        work32: *mut f32,
        work32_len: usize,
        work64: *mut f64,
        work64_len: usize,
        snapshot: *mut u64,
        snapshot_len: usize,
    ) -> u32;
    fn kistovab_support_age(state: *const u64, state_len: usize, age: *mut f64) -> u32;
    fn kistovab_keep(
        state: *const u64,
        state_len: usize,
        name: usize,
        store: *mut u64,
        store_len: usize,
    ) -> u32;
    fn kistovab_restore(
        state: *mut u64,
        state_len: usize,
        name: usize,
        store: *const u64,
        store_len: usize,
    ) -> u32;
    fn kistovab_fill_load(
        seed: u64,
        hop_ms: f64,
        bands: usize,
        times: *mut f64,
        times_len: usize,
        energies: *mut f64,
        energies_len: usize,
        values: *mut f32,
        values_len: usize,
    ) -> u32;
    // Lengths of buffers: numbers in, a number out. 0 where a count is over its limit.
    #[link_name = "kistovab_fine_length"]
    pub safe fn fine_length(frames: usize, bands: usize) -> usize;
    #[link_name = "kistovab_coarse_length"]
    pub safe fn coarse_length(frames: usize, bands: usize) -> usize;
    #[link_name = "kistovab_fine_energy_length"]
    pub safe fn fine_energy_length(frames: usize, bands: usize) -> usize;
    #[link_name = "kistovab_coarse_energy_length"]
    pub safe fn coarse_energy_length(frames: usize, bands: usize) -> usize;
    #[link_name = "kistovab_work32_length"]
    pub safe fn work32_length(frames: usize, bands: usize) -> usize;
    #[link_name = "kistovab_work64_length"]
    pub safe fn work64_length(frames: usize, bands: usize, reference_frames: usize) -> usize;
}

// ---- what calls answer, beside refusals

/// Opened, computed, an age, kept, restored, or a load that is filled.
pub const DONE: u32 = 0;
pub const REREAD: u32 = 100;
pub const NO_AGE: u32 = 101;

// ---- the calls

/// Fills the index and writes a fresh state.
pub fn open(
    configuration: &Configuration,
    hop_ms: f64,
    reference: &Flat,
    index: &mut Index,
    state: &mut [u64],
) -> u32 {
    // SAFETY: every pointer comes with the length of its own slice.
    unsafe {
        kistovab_open(
            configuration.minimum_readiness_duration_ms,
            configuration.tracking_query_duration_ms,
            configuration.minimum_active_frame_energy_dbfs,
            configuration.minimum_average_energy_dbfs,
            configuration.minimum_active_frame_fraction,
            hop_ms,
            reference.bands,
            reference.times.as_ptr(),
            reference.times.len(),
            reference.values.as_ptr(),
            reference.values.len(),
            index.fine.as_mut_ptr(),
            index.fine.len(),
            index.coarse.as_mut_ptr(),
            index.coarse.len(),
            index.fine_energy.as_mut_ptr(),
            index.fine_energy.len(),
            index.coarse_energy.as_mut_ptr(),
            index.coarse_energy.len(),
            state.as_mut_ptr(),
            state.len(),
        )
    }
}

/// Answers a window: writes the snapshot and, where it is computed, the next state.
pub fn submit(
    state: &mut [u64],
    index: &Index,
    window: &Flat,
    clock_ms: f64,
    work: &mut Work,
    snapshot: &mut [u64],
) -> u32 {
    // SAFETY: every pointer comes with the length of its own slice.
    unsafe {
        kistovab_submit(
            state.as_mut_ptr(),
            state.len(),
            index.fine.as_ptr(),
            index.fine.len(),
            index.coarse.as_ptr(),
            index.coarse.len(),
            index.fine_energy.as_ptr(),
            index.fine_energy.len(),
            index.coarse_energy.as_ptr(),
            index.coarse_energy.len(),
            window.bands,
            window.times.as_ptr(),
            window.times.len(),
            window.energies.as_ptr(),
            window.energies.len(),
            window.values.as_ptr(),
            window.values.len(),
            clock_ms,
            work.narrow.as_mut_ptr(),
            work.narrow.len(),
            work.wide.as_mut_ptr(),
            work.wide.len(),
            snapshot.as_mut_ptr(),
            snapshot.len(),
        )
    }
}

/// Writes the age where there is one.
pub fn support_age(state: &[u64], age: &mut f64) -> u32 {
    // SAFETY: the pointer comes with its slice's length; the age is one number.
    unsafe { kistovab_support_age(state.as_ptr(), state.len(), age) }
}

/// Writes the state into the store's place of that name.
pub fn keep(state: &[u64], name: usize, store: &mut [u64]) -> u32 {
    // SAFETY: every pointer comes with the length of its own slice.
    unsafe {
        kistovab_keep(
            state.as_ptr(),
            state.len(),
            name,
            store.as_mut_ptr(),
            store.len(),
        )
    }
}

/// Writes the state that the store's place of that name holds.
pub fn restore(state: &mut [u64], name: usize, store: &[u64]) -> u32 {
    // SAFETY: every pointer comes with the length of its own slice.
    unsafe {
        kistovab_restore(
            state.as_mut_ptr(),
            state.len(),
            name,
            store.as_ptr(),
            store.len(),
        )
    }
}

/// Fills all three slices with a load.
pub fn fill_load(
    seed: u64,
    hop_ms: f64,
    bands: usize,
    times: &mut [f64],
    energies: &mut [f64],
    values: &mut [f32],
) -> u32 {
    // SAFETY: every pointer comes with the length of its own slice.
    unsafe {
        kistovab_fill_load(
            seed,
            hop_ms,
            bands,
            times.as_mut_ptr(),
            times.len(),
            energies.as_mut_ptr(),
            energies.len(),
            values.as_mut_ptr(),
            values.len(),
        )
    }
}

#[cfg(test)]
mod tests;
