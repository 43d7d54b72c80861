//! The processor time of this thread: the turns of other programs are not in it,
//! though what they share with it, such as caches, may slow it.

use std::time::Duration;

#[repr(C)]
struct Timespec {
    seconds: i64,
    nanoseconds: i64,
}

extern "C" {
    fn clock_gettime(clock: i32, time: *mut Timespec) -> i32;
}

/// Linux's number for the clock.
const THREAD_CPU_TIME: i32 = 3;

pub fn now() -> Duration {
    let mut time = Timespec {
        seconds: 0,
        nanoseconds: 0,
    };
    // SAFETY: the clock's time is written to a place of the form that 64-bit
    // Linux gives it.
    let failed = unsafe { clock_gettime(THREAD_CPU_TIME, &mut time) };
    assert_eq!(failed, 0, "the thread has a clock");
    Duration::new(time.seconds as u64, time.nanoseconds as u32)
}
