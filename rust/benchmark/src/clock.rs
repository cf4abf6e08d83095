//! The clock: the processor time of this thread, in which the time of other programs that push it aside does not count.
//!
//! The standard library has no such clock, so C's is called, as the library is: on x86-64 Linux.

/// C's `struct timespec`.
#[repr(C)]
#[derive(Default)]
struct Timespec {
    seconds: i64,
    nanoseconds: i64,
}

const CLOCK_THREAD_CPUTIME_ID: i32 = 3;

extern "C" {
    fn clock_gettime(clock: i32, time: *mut Timespec) -> i32;
}

/// Nanoseconds that this thread has run so far.
pub fn thread_time() -> f64 {
    let mut time = Timespec::default();
    // SAFETY: the call writes one timespec and keeps no pointer to it.
    let failed = unsafe { clock_gettime(CLOCK_THREAD_CPUTIME_ID, &mut time) };
    assert_eq!(failed, 0, "the thread has a clock");
    time.seconds as f64 * 1e9 + time.nanoseconds as f64
}
