//! Times: ticks of the processor for what takes microseconds, the thread's own time for what takes milliseconds.
use std::arch::x86_64::{__rdtscp, _mm_lfence, _rdtsc};
use std::time::Instant;

#[repr(C)]
struct Timespec {
    seconds: i64,
    nanos: i64,
}

unsafe extern "C" {
    fn clock_gettime(clock: i32, at: *mut Timespec) -> i32;
}

/// Microseconds that this thread has run, whatever else the machine did.
pub fn thread_micros() -> f64 {
    let mut at = Timespec { seconds: 0, nanos: 0 };
    unsafe { clock_gettime(3, &mut at) };
    at.seconds as f64 * 1e6 + at.nanos as f64 / 1e3
}

pub struct Ticks {
    per_micro: f64,
    /// What two readings take with nothing in between.
    empty: u64,
}

fn start() -> u64 {
    unsafe {
        _mm_lfence();
        let at = _rdtsc();
        _mm_lfence();
        at
    }
}

fn stop() -> u64 {
    let mut core = 0;
    unsafe {
        let at = __rdtscp(&mut core);
        _mm_lfence();
        at
    }
}

impl Ticks {
    pub fn new() -> Ticks {
        let (wall, from) = (Instant::now(), start());
        while wall.elapsed().as_millis() < 50 {}
        let per_micro = (stop() - from) as f64 / wall.elapsed().as_secs_f64() / 1e6;
        let empty = (0..1000).map(|_| { let at = start(); stop() - at }).min().unwrap();
        Ticks { per_micro, empty }
    }

    pub fn micros(&self, work: impl FnOnce()) -> f64 {
        let from = start();
        work();
        (stop() - from).saturating_sub(self.empty) as f64 / self.per_micro
    }
}

pub fn median(times: &mut [f64]) -> f64 {
    times.sort_by(f64::total_cmp);
    times[times.len() / 2]
}
