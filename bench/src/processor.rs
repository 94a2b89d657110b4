//! The time that this thread has had of a processor: other work on the machine does not count.
use std::ffi::{c_int, c_long};

/// C's `struct timespec`.
#[repr(C)]
struct Time {
    seconds: c_long,
    nanoseconds: c_long,
}

/// Linux's number of the clock of a thread.
const THREAD_CLOCK: c_int = 3;

extern "C" {
    fn clock_gettime(clock: c_int, time: *mut Time) -> c_int;
}

/// The processor time of this thread, in nanoseconds.
pub fn processor_time() -> f64 {
    let mut time = Time { seconds: 0, nanoseconds: 0 };
    // The function writes the two numbers, which are ours, and keeps nothing.
    let failed = unsafe { clock_gettime(THREAD_CLOCK, &mut time) };
    assert_eq!(failed, 0, "the clock of a thread can be read");
    time.seconds as f64 * 1e9 + time.nanoseconds as f64
}
