//! The processor's time that this thread has used. Other processes hardly change it, as they do the
//! time of a clock on the wall.

use std::time::Duration;

#[repr(C)]
struct Timespec {
    seconds: i64,
    nanoseconds: i64,
}

/// Linux's number of the clock.
const THREAD_TIME: i32 = 3;

extern "C" {
    fn clock_gettime(clock: i32, time: *mut Timespec) -> i32;
}

pub fn time() -> Duration {
    let mut time = Timespec {
        seconds: 0,
        nanoseconds: 0,
    };
    // The pointer leads to a time that is there to be written.
    let status = unsafe { clock_gettime(THREAD_TIME, &mut time) };
    assert!(status == 0, "the processor's time cannot be had");
    Duration::new(time.seconds as u64, time.nanoseconds as u32)
}
