//! The time of the processor, which other programs change less than that of the clock.

use std::time::Duration;

/// The C type of a time.
#[repr(C)]
#[derive(Default)]
struct Timespec {
    seconds: i64,
    nanoseconds: i64,
}

extern "C" {
    fn clock_gettime(clock: i32, time: *mut Timespec) -> i32;
}

/// The clock of a thread's time on the processor, on Linux.
const OF_THREAD: i32 = 3;

/// Returns how long this thread has run on a processor.
pub fn thread_time() -> Duration {
    let mut time = Timespec::default();
    // SAFETY: the call may write to the variable.
    let status = unsafe { clock_gettime(OF_THREAD, &mut time) };
    assert_eq!(status, 0);
    Duration::new(time.seconds as u64, time.nanoseconds as u32)
}
