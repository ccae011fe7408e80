//! The processor time of this thread: other work on the machine does not count.

#[repr(C)]
struct Time {
    seconds: i64,
    nanoseconds: i64,
}

extern "C" {
    fn clock_gettime(clock: i32, time: *mut Time) -> i32;
}

/// Linux's number for the time of the calling thread.
const OF_THREAD: i32 = 3;

/// Microseconds.
pub fn now() -> f64 {
    let mut time = Time { seconds: 0, nanoseconds: 0 };
    // The call only writes to the record that is lent to it.
    let status = unsafe { clock_gettime(OF_THREAD, &mut time) };
    assert_eq!(status, 0, "no clock for a thread's time");
    time.seconds as f64 * 1e6 + time.nanoseconds as f64 / 1e3
}
