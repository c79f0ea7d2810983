//! The processor time of this thread, so that what else the machine does counts less.

#[repr(C)]
struct Timespec {
    seconds: i64,
    nanoseconds: i64,
}

/// Linux's number for the clock.
const THREAD_CPUTIME: i32 = 3;

extern "C" {
    fn clock_gettime(clock: i32, time: *mut Timespec) -> i32;
}

/// Nanoseconds of processor time since the thread began.
pub fn now() -> f64 {
    let mut time = Timespec { seconds: 0, nanoseconds: 0 };
    // SAFETY: the call fills a struct that is laid out as C's on 64-bit Linux.
    let failed = unsafe { clock_gettime(THREAD_CPUTIME, &mut time) };
    assert_eq!(failed, 0, "the clock answers");
    time.seconds as f64 * 1e9 + time.nanoseconds as f64
}

/// Nanoseconds from then until now. On a busy virtual machine this clock was seen to stand still over a whole run: that is no time, and no run's
/// least.
pub fn since(then: f64) -> f64 {
    match now() - then {
        time if time > 0.0 => time,
        _ => f64::INFINITY,
    }
}
