//! The time that this thread has run for: other work on the machine hardly counts in it.

use std::time::Duration;

/// C's `struct timespec` and `CLOCK_THREAD_CPUTIME_ID` of x86-64 Linux, where the library runs.
#[repr(C)]
struct Timespec {
    seconds: i64,
    nanoseconds: i64,
}

const THREAD_TIME: i32 = 3;

extern "C" {
    fn clock_gettime(clock: i32, time: *mut Timespec) -> i32;
}

pub fn thread_time() -> Duration {
    let mut time = Timespec {
        seconds: 0,
        nanoseconds: 0,
    };
    // Sound: the one thing written is the struct that is lent.
    let failed = unsafe { clock_gettime(THREAD_TIME, &mut time) };
    assert_eq!(failed, 0, "the clock of a thread");
    Duration::new(time.seconds as u64, time.nanoseconds as u32)
}

#[cfg(test)]
mod tests {
    use super::*;
    use std::hint::black_box;

    #[test]
    fn work_takes_time_and_sleep_does_not() {
        let begun = thread_time();
        let sum: u64 = (0..2_000_000).map(black_box).sum();
        let worked = thread_time() - begun;
        assert!(sum > 0 && worked > Duration::ZERO);
        let begun = thread_time();
        std::thread::sleep(Duration::from_millis(50));
        assert!(thread_time() - begun < Duration::from_millis(40));
    }
}
