//! Times by many short rounds: the best of them is one that nothing else on the machine disturbed.
use std::time::{Duration, Instant};

/// The least time of a round.
pub const ROUND: Duration = Duration::from_micros(500);

/// A function that works on a buffer.
type Call = Box<dyn Fn(&mut [u8])>;

/// A function that is measured, and the seconds a call of its best round.
pub struct Timed {
    call: Call,
    pub best: f64,
}

impl Timed {
    pub fn new(call: impl Fn(&mut [u8]) + 'static) -> Timed {
        Timed { call: Box::new(call), best: f64::INFINITY }
    }

    /// One more round, with `calls_at_once` calls between two looks at the clock. Every call gets the buffer as the call before left it.
    pub fn round(&mut self, buffer: &mut [u8], calls_at_once: u32) {
        let start = Instant::now();
        let mut calls = 0;
        while start.elapsed() < ROUND {
            for _ in 0..calls_at_once {
                (self.call)(buffer);
            }
            calls += calls_at_once;
        }
        self.best = self.best.min(start.elapsed().as_secs_f64() / f64::from(calls));
    }
}
