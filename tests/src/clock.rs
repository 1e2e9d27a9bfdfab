//! The processor time of a thread: other work on the machine is not counted.

/// Seconds that this thread has run so far, from the C library's clock_gettime on Linux.
pub fn processor_time() -> f64 {
    #[repr(C)]
    struct Timespec {
        seconds: i64,
        nanoseconds: i64,
    }
    extern "C" {
        fn clock_gettime(clock: i32, time: *mut Timespec) -> i32;
    }
    const THREAD_CPUTIME: i32 = 3;
    let mut time = Timespec { seconds: 0, nanoseconds: 0 };
    let status = unsafe { clock_gettime(THREAD_CPUTIME, &mut time) };
    assert_eq!(status, 0, "there is a clock of the thread's processor time");
    time.seconds as f64 + 1e-9 * time.nanoseconds as f64
}
