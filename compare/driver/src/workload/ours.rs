//! The library's call, over slices.

use crate::sessions::session::Window;

// It is proved to write within the slices given, whatever is handed in.
unsafe extern "C" {
    fn kistovab_fill_load(
        seed: u64,
        hop_ms: f64,
        bands: usize,
        times: *mut f64,
        times_len: usize,
        energies: *mut f64,
        energies_len: usize,
        values: *mut f32,
        values_len: usize,
    ) -> u32;
}

pub const FILLED: u32 = 0;

pub fn fill(
    seed: u64,
    hop: f64,
    bands: usize,
    times: &mut [f64],
    energies: &mut [f64],
    values: &mut [f32],
) -> u32 {
    // SAFETY: every pointer goes with its slice's length.
    unsafe {
        kistovab_fill_load(
            seed,
            hop,
            bands,
            times.as_mut_ptr(),
            times.len(),
            energies.as_mut_ptr(),
            energies.len(),
            values.as_mut_ptr(),
            values.len(),
        )
    }
}

/// A load of its own, or the number it is refused with.
pub fn load(seed: u64, hop: f64, bands: usize, frames: usize) -> Result<Window, u32> {
    let mut load = Window {
        bands,
        times: vec![0.0; frames],
        energies: vec![0.0; frames],
        values: vec![0.0; bands * frames],
    };
    let Window {
        times,
        energies,
        values,
        ..
    } = &mut load;
    match fill(seed, hop, bands, times, energies, values) {
        FILLED => Ok(load),
        code => Err(code),
    }
}
