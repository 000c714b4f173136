//! Clocks that keep the ageing rule (document 01, "Ageing"; document 02, W-205) exactly.

use crate::instants::{Instant, MILLION};

/// A clock whose readings are whole microseconds. True time is a function of the reading, in
/// millionths: each microsecond on the clock takes it on by the rate. Of two readings that are d apart
/// it so advances by d × rate, and with a rate from 1,000,000 − r to 1,000,000 + r that is from
/// d × (1,000,000 − r) to d × (1,000,000 + r) for every two readings; nothing is rounded. (A reading
/// that is a rounded function of true time breaks the rule, by up to a microsecond.)
#[derive(Clone, Copy, Debug, PartialEq, Eq)]
pub struct Clock {
    /// True time at reading 0.
    start: Instant,
    rate: Instant,
}

impl Clock {
    /// The clock that comes to a reading at an instant, and is slow by so many parts per million.
    pub fn new(reading: u64, at: Instant, slow: i32) -> Clock {
        let rate = MILLION + Instant::from(slow);
        Clock { start: at - Instant::from(reading) * rate, rate }
    }

    /// True time when the clock comes to a reading.
    pub fn true_at(self, reading: u64) -> Instant {
        self.start + Instant::from(reading) * self.rate
    }

    /// The first reading that it comes to at an instant or after it; none is below 0.
    pub fn first_from(self, at: Instant) -> u64 {
        let passed = (at - self.start).max(0);
        ((passed + self.rate - 1) / self.rate) as u64
    }
}
