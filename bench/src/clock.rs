//! Medians of measured times.

use std::alloc::Global;
use std::io;
use std::rt::Clock;
use std::time::Instant;

/// The times of one thing that is measured again and again.
#[derive(Drop)]
pub struct Times {
    nanos: Vec<u64>,
}

impl Times {
    /// No time yet.
    pub fn new(alloc: Global) -> Self {
        Times {
            nanos: Vec::new(alloc),
        }
    }

    /// Adds the time since `start`.
    pub fn add(&mut self, clock: &impl Clock, start: Instant) -> io::Result<()> {
        let nanos = start.elapsed(clock)?.as_nanos();
        self.nanos.push(if nanos < 1 << 60 {
            nanos as u64
        } else {
            1 << 60
        })?;
        Ok(())
    }

    /// The time in the middle, in nanoseconds, at least 1.
    pub fn median(&mut self) -> io::Result<u64> {
        self.nanos.sort()?;
        let middle = self.nanos.len() / 2;
        Ok(self.nanos.get(middle).copied().unwrap_or(1).max(1))
    }
}
