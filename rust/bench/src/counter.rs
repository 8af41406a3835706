//! What counts the cycles: the time stamp counter on x86-64, the system's clock elsewhere.

use std::time::{Duration, Instant};

#[cfg(not(target_arch = "x86_64"))]
pub use clock::{count, NAME};
#[cfg(target_arch = "x86_64")]
pub use time_stamp::{count, NAME};

#[cfg(target_arch = "x86_64")]
mod time_stamp {
    use std::arch::x86_64::{_mm_lfence, _rdtsc};

    /// What counts.
    pub const NAME: &str = "the time stamp counter";

    /// The counter, once all that stands before is done.
    pub fn count() -> u64 {
        // SAFETY: every x86-64 processor has both instructions.
        unsafe {
            _mm_lfence();
            let cycles = _rdtsc();
            _mm_lfence();
            cycles
        }
    }
}

/// Built on x86-64 too where it is tested, so that it stays sound.
#[cfg(any(test, not(target_arch = "x86_64")))]
mod clock {
    use std::sync::OnceLock;
    use std::time::Instant;

    /// What counts.
    #[cfg_attr(target_arch = "x86_64", allow(dead_code))]
    pub const NAME: &str = "the system's clock, one to a nanosecond";

    /// The nanoseconds since the first call.
    pub fn count() -> u64 {
        static BEGIN: OnceLock<Instant> = OnceLock::new();
        BEGIN.get_or_init(Instant::now).elapsed().as_nanos() as u64
    }
}

/// The counter's speed in GHz.
pub fn speed() -> f64 {
    speed_of(count)
}

fn speed_of(count: fn() -> u64) -> f64 {
    let (begin, cycles) = (Instant::now(), count());
    std::thread::sleep(Duration::from_millis(50));
    (count() - cycles) as f64 / begin.elapsed().as_nanos() as f64
}

#[cfg(test)]
mod tests {
    use super::*;

    #[test]
    fn the_clock_counts_nanoseconds() {
        // Wide, since a busy machine may stop the test between two readings.
        let speed = speed_of(clock::count);
        assert!((0.2..5.0).contains(&speed), "{speed}");
    }
}
