//! The processor time of this thread, so that what other programs do meanwhile is not counted.

#[repr(C)]
struct Timespec {
    seconds: i64,
    nanoseconds: i64,
}

const CLOCK_THREAD_CPUTIME_ID: i32 = 3;

extern "C" {
    fn clock_gettime(clock: i32, time: *mut Timespec) -> i32;
}

fn now() -> f64 {
    let mut time = Timespec { seconds: 0, nanoseconds: 0 };
    // The pointer is to a record of the kind that Linux fills on 64-bit machines.
    let status = unsafe { clock_gettime(CLOCK_THREAD_CPUTIME_ID, &mut time) };
    assert_eq!(status, 0, "this machine has a clock for each thread");
    time.seconds as f64 * 1e9 + time.nanoseconds as f64
}

/// Nanoseconds that the work takes.
pub fn time(work: impl FnOnce()) -> f64 {
    let before = now();
    work();
    now() - before
}
