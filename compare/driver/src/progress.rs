//! How far a long comparison has come, to stderr every few seconds.

use std::sync::atomic::{AtomicU64, Ordering::Relaxed};
use std::sync::Mutex;
use std::time::{Duration, Instant};

const INTERVAL: Duration = Duration::from_secs(5);

pub struct Progress<'a> {
    name: &'a str,
    total: u64,
    done: AtomicU64,
    told: Mutex<Instant>,
}

impl<'a> Progress<'a> {
    pub fn new(name: &'a str, total: u64) -> Self {
        Self {
            name,
            total,
            done: AtomicU64::new(0),
            told: Mutex::new(Instant::now()),
        }
    }

    pub fn advance(&self, inputs: u64) {
        let done = self.done.fetch_add(inputs, Relaxed) + inputs;
        // Whoever finds another thread telling has nothing to add.
        let Ok(mut told) = self.told.try_lock() else {
            return;
        };
        if told.elapsed() >= INTERVAL {
            *told = Instant::now();
            let percent = 100 * done / self.total;
            eprintln!("{}: {percent}% of {} inputs", self.name, self.total);
        }
    }
}
