//! The processor time of this thread, which other programs on the machine do not add to.

use std::time::Duration;

#[repr(C)]
struct Timespec {
    seconds: i64,
    nanoseconds: i64,
}

const CLOCK_THREAD_CPUTIME_ID: i32 = 3;

unsafe extern "C" {
    fn clock_gettime(clock: i32, time: *mut Timespec) -> i32;
}

pub fn thread_time() -> Duration {
    let mut time = Timespec { seconds: 0, nanoseconds: 0 };
    // SAFETY: it writes one Timespec, and keeps no pointer.
    let answer = unsafe { clock_gettime(CLOCK_THREAD_CPUTIME_ID, &mut time) };
    assert_eq!(answer, 0, "no clock of the thread's processor time");
    Duration::new(time.seconds as u64, time.nanoseconds as u32)
}

/// How long the thread works on this, in nanoseconds.
pub fn nanoseconds(work: impl FnOnce()) -> f64 {
    let begin = thread_time();
    work();
    (thread_time() - begin).as_nanos() as f64
}
