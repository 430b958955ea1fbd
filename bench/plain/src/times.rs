//! Steps that are timed in rounds.

use std::hint::black_box;
use std::time::{Duration, Instant};

/// The steps by name, with the least time of each.
pub struct Times(Vec<(&'static str, Duration)>);

impl Times {
    pub fn new() -> Times {
        Times(Vec::new())
    }

    pub fn time<T>(&mut self, name: &'static str, step: impl FnOnce() -> T) -> T {
        let start = Instant::now();
        let value = black_box(step());
        self.note(name, start.elapsed());
        value
    }

    /// Takes in how long a step took in one round.
    pub fn note(&mut self, name: &'static str, took: Duration) {
        match self.0.iter_mut().find(|entry| entry.0 == name) {
            Some(entry) => entry.1 = entry.1.min(took),
            None => self.0.push((name, took)),
        }
    }

    /// Prints a line `NAME MICROSECONDS` for each step.
    pub fn print(&self) {
        for (name, took) in &self.0 {
            println!("{name} {:.1}", took.as_secs_f64() * 1e6);
        }
    }
}
