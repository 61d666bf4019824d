//! `embassy_time`: setting a deadline is no access, so times hold nothing. The clock is asked in `Timeout::check`.

use std::ops::Add;

#[derive(Copy, Clone)]
pub struct Duration;

impl Duration {
    pub const fn from_millis(_millis: u64) -> Self {
        Self
    }
}

#[derive(Copy, Clone)]
pub struct Instant;

impl Instant {
    pub fn now() -> Self {
        Self
    }
}

impl Add<Duration> for Instant {
    type Output = Instant;
    fn add(self, _rhs: Duration) -> Instant {
        Instant
    }
}
