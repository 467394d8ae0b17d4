//! Processor times.

use std::time::Duration;

/// The processor time of this process so far: other processes do not count.
pub fn processor_time() -> Duration {
    #[repr(C)]
    struct Time {
        seconds: i64,
        nanoseconds: i64,
    }
    const PROCESS: i32 = 2;
    extern "C" {
        fn clock_gettime(clock: i32, time: *mut Time) -> i32;
    }
    let mut time = Time { seconds: 0, nanoseconds: 0 };
    // SAFETY: the time is lent for the call.
    assert_eq!(unsafe { clock_gettime(PROCESS, &mut time) }, 0);
    Duration::new(time.seconds as u64, time.nanoseconds as u32)
}

/// The time of a call.
pub fn time(call: impl FnOnce()) -> Duration {
    let start = processor_time();
    call();
    processor_time() - start
}

/// The median of so many calls; one of more than a second is made only once.
pub fn median(rounds: usize, mut call: impl FnMut()) -> Duration {
    let mut times = Vec::new();
    for _ in 0..rounds {
        times.push(time(&mut call));
        if times[0] > Duration::from_secs(1) {
            break;
        }
    }
    times.sort_unstable();
    times[times.len() / 2]
}
