//! How much stack a call touches: the stack below is filled with a pattern first, and looked at
//! afterwards.

use std::arch::asm;
use std::ptr;
use std::thread;

const PATTERN: u64 = 0xc0de_57ac_c0de_57ac;
/// How much is filled.
const FILLED: usize = 4 << 20;
/// Below the pointer a function may keep things without moving it.
const RED_ZONE: usize = 128;

/// Bytes below the caller's frame that the call wrote to, in a thread with stack enough.
pub fn touched<F: FnOnce() + Send>(call: F) -> usize {
    thread::scope(|scope| {
        let thread = thread::Builder::new()
            .stack_size(2 * FILLED)
            .spawn_scoped(scope, || depth(call));
        thread.map_or(0, |thread| thread.join().unwrap_or(0))
    })
}

#[inline(never)]
fn depth<F: FnOnce()>(call: F) -> usize {
    let top: usize;
    // SAFETY: reads a register.
    unsafe { asm!("mov {}, rsp", out(reg) top, options(nomem, nostack)) };
    let top = (top - RED_ZONE) & !7;
    let bottom = top - FILLED;
    for place in (bottom..top).step_by(8) {
        // SAFETY: this thread's stack reaches further down, and nobody uses it yet.
        unsafe { ptr::write_volatile(place as *mut u64, PATTERN) };
    }
    call();
    // SAFETY: as above; it was filled.
    let kept = |place: usize| unsafe { ptr::read_volatile(place as *const u64) } == PATTERN;
    let first = (bottom..top).step_by(8).find(|&place| !kept(place));
    first.map_or(0, |place| top - place)
}
