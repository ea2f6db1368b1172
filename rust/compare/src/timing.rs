//! The time of a call: processor time of the calling thread, so that what else the machine does counts little. It is the
//! best of several batches, each long enough for the clock and short enough that some are not disturbed.

use std::time::Duration;

/// How long a batch is at least, and how many there are.
#[derive(Clone, Copy, Debug)]
pub struct Timing {
    pub batch: Duration,
    pub batches: usize,
}

impl Timing {
    /// A measurement.
    pub fn whole() -> Self {
        Timing { batch: Duration::from_millis(2), batches: 50 }
    }

    /// A look.
    pub fn quick() -> Self {
        Timing { batch: Duration::from_millis(1), batches: 3 }
    }

    /// The best time of a call, in nanoseconds.
    pub fn best(&self, mut run: impl FnMut()) -> f64 {
        let mut calls = 1u32;
        loop {
            let time = batch(calls, &mut run);
            if time >= self.batch {
                break;
            }
            // Towards the wanted length, but not by more than ten times at once: the first calls are slow.
            let wanted = self.batch.as_nanos() / time.as_nanos().max(1) + 1;
            calls = calls.saturating_mul(wanted.clamp(2, 10) as u32);
        }
        let time = (0..self.batches).map(|_| batch(calls, &mut run)).min().unwrap_or_default();
        time.as_nanos() as f64 / f64::from(calls)
    }
}

fn batch(calls: u32, run: &mut impl FnMut()) -> Duration {
    let start = processor_time();
    for _ in 0..calls {
        run();
    }
    processor_time().saturating_sub(start)
}

/// The C library's `struct timespec` on x86-64 Linux, where the archive runs.
#[repr(C)]
#[derive(Default)]
struct Timespec {
    seconds: i64,
    nanoseconds: i64,
}

extern "C" {
    fn clock_gettime(clock: i32, time: *mut Timespec) -> i32;
}

/// The processor time that this thread has taken.
fn processor_time() -> Duration {
    const THREAD: i32 = 3;
    let mut time = Timespec::default();
    // SAFETY: the pointer is that of a whole timespec, which is lent by no one else and written before it returns.
    let failed = unsafe { clock_gettime(THREAD, &mut time) };
    assert_eq!(failed, 0, "there is no clock of the thread");
    Duration::new(time.seconds as u64, time.nanoseconds as u32)
}
