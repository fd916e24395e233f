//! The processor time of this thread: what other programs on the machine take does not count.

use std::time::Duration;

#[repr(C)]
struct Timespec {
    seconds: i64,
    nanos: i64,
}

/// Linux: CLOCK_THREAD_CPUTIME_ID.
const THREAD: i32 = 3;

extern "C" {
    fn clock_gettime(clock: i32, time: *mut Timespec) -> i32;
}

pub fn now() -> Duration {
    let mut time = Timespec {
        seconds: 0,
        nanos: 0,
    };
    // Sound: the struct is C's on 64-bit Linux, and lent for the call.
    let failed = unsafe { clock_gettime(THREAD, &mut time) };
    assert_eq!(failed, 0);
    Duration::new(time.seconds as u64, time.nanos as u32)
}
