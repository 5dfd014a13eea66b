//! The time since a run began, alike in all its processes.

use std::time::{Duration, SystemTime, UNIX_EPOCH};

/// The host's clock, read from the begin of the run on.
#[derive(Clone, Copy, Debug)]
pub struct Clock(SystemTime);

impl Clock {
    /// Begins now.
    pub fn start() -> Self {
        Clock(SystemTime::now())
    }

    /// The clock that another process began, by its microseconds.
    pub fn since(micros: u64) -> Self {
        Clock(UNIX_EPOCH + Duration::from_micros(micros))
    }

    /// When it began, for another process.
    pub fn micros(&self) -> u64 {
        self.0.duration_since(UNIX_EPOCH).map_or(0, |since| since.as_micros() as u64)
    }

    /// The time that has passed; none where the host's clock was set back.
    pub fn now(&self) -> Duration {
        self.0.elapsed().unwrap_or_default()
    }
}
