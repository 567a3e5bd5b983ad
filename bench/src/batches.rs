//! Times of two programs that do the same, taken in turn.

use std::time::{Duration, Instant};

/// The times of ours and of the reckoning's.
#[derive(Default)]
pub struct Times {
    ours: Vec<Duration>,
    theirs: Vec<Duration>,
}

/// The time in the middle.
fn median(times: &[Duration]) -> Duration {
    let mut sorted = times.to_vec();
    sorted.sort_unstable();
    sorted[sorted.len() / 2]
}

fn least(times: &[Duration]) -> Duration {
    *times.iter().min().expect("a time")
}

fn ratio(ours: Duration, theirs: Duration) -> f64 {
    ours.as_secs_f64() / theirs.as_secs_f64()
}

pub fn timed(work: impl FnOnce()) -> Duration {
    let start = Instant::now();
    work();
    start.elapsed()
}

impl Times {
    /// Times each once. Which comes first changes each time, so that neither always finds the
    /// inputs in the cache.
    pub fn take(&mut self, ours: impl FnOnce() -> Duration, theirs: impl FnOnce() -> Duration) {
        if self.ours.len() % 2 == 0 {
            self.ours.push(ours());
            self.theirs.push(theirs());
        } else {
            self.theirs.push(theirs());
            self.ours.push(ours());
        }
    }

    /// Prints the ratios, and the medians of one call where each time is of so many.
    pub fn print(&self, name: &str, calls: usize) {
        let (ours, theirs) = (median(&self.ours), median(&self.theirs));
        let one = |time: Duration| time.as_secs_f64() * 1e9 / calls as f64;
        println!(
            "{name:<44} median {:>6.2}  least {:>6.2}  ({:.1} ns against {:.1} ns)",
            ratio(ours, theirs),
            ratio(least(&self.ours), least(&self.theirs)),
            one(ours),
            one(theirs),
        );
    }
}
