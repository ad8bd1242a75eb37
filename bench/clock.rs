//! The processor time of this thread: time in which other programs have the processor does not count.

use std::time::Duration;

/// C's `struct timespec`, on Linux with 64-bit words.
#[derive(Default)]
#[repr(C)]
struct Timespec {
    seconds: i64,
    nanoseconds: i64,
}

const CLOCK_THREAD_CPUTIME_ID: i32 = 3;

extern "C" {
    fn clock_gettime(clock: i32, time: *mut Timespec) -> i32;
}

pub fn processor_time() -> Duration {
    let mut time = Timespec::default();
    // The C library writes to the struct that it is given.
    let status = unsafe { clock_gettime(CLOCK_THREAD_CPUTIME_ID, &mut time) };
    assert_eq!(status, 0, "there is such a clock");
    Duration::new(time.seconds as u64, time.nanoseconds as u32)
}
