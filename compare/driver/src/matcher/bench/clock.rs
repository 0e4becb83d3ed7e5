//! Processor time. Searches take milliseconds, in which a load from outside often takes the core
//! away; the time of the wall would count that.

use std::ffi::{c_int, c_long};
use std::time::Duration;

/// As Linux has it on x86-64.
#[repr(C)]
struct Timespec {
    seconds: i64,
    nanoseconds: c_long,
}

const THREAD_CPUTIME: c_int = 3;

unsafe extern "C" {
    fn clock_gettime(clock: c_int, time: *mut Timespec) -> c_int;
}

/// How long this thread has had a core so far.
pub fn worked() -> Duration {
    let mut time = Timespec {
        seconds: 0,
        nanoseconds: 0,
    };
    // SAFETY: it writes the one struct.
    let answer = unsafe { clock_gettime(THREAD_CPUTIME, &mut time) };
    assert_eq!(answer, 0, "Linux has this clock");
    Duration::new(time.seconds as u64, time.nanoseconds as u32)
}
