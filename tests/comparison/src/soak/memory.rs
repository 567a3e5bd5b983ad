//! The most memory that a running program ever had, as the system reports it.

use std::fs;

/// The most KiB by which a program may grow: some pages.
const MOST_GROWTH: u64 = 64;

/// The first and the last sample that could be taken, in KiB.
#[derive(Clone, Copy, Debug, Default)]
pub struct Memory {
    samples: Option<(u64, u64)>,
}

fn parse(status: &str) -> Option<u64> {
    let line = status.lines().find_map(|line| line.strip_prefix("VmHWM:"))?;
    line.split_whitespace().next()?.parse().ok()
}

impl Memory {
    /// Takes a sample of a process; one that has ended has none.
    pub fn take(&mut self, process: u32) {
        let status = fs::read_to_string(format!("/proc/{process}/status")).ok();
        if let Some(sample) = status.and_then(|status| parse(&status)) {
            self.add(sample);
        }
    }

    fn add(&mut self, sample: u64) {
        let first = self.samples.map_or(sample, |(first, _)| first);
        self.samples = Some((first, sample));
    }

    /// The two samples, if the program did not grow between them.
    pub fn judge(&self) -> Result<(u64, u64), String> {
        match self.samples {
            None => Err("it could not be measured".into()),
            Some((first, last)) if last > first + MOST_GROWTH => {
                Err(format!("it grew from {first} to {last} KiB"))
            }
            Some(samples) => Ok(samples),
        }
    }
}

#[cfg(test)]
mod tests {
    use super::*;

    #[test]
    fn the_number_is_read() {
        let status = "Name:\tx\nVmPeak:\t 9 kB\nVmHWM:\t    1234 kB\nVmRSS:\t    1200 kB\n";
        assert_eq!(parse(status), Some(1234));
        assert_eq!(parse("Name:\tx\nState:\tZ (zombie)\n"), None);
    }

    #[test]
    fn growth_is_told() {
        let mut memory = Memory::default();
        assert!(memory.judge().is_err());
        memory.add(1000);
        memory.add(1000 + MOST_GROWTH);
        assert!(memory.judge().is_ok());
        memory.add(1001 + MOST_GROWTH);
        assert_eq!(memory.judge(), Err("it grew from 1000 to 1065 KiB".into()));
    }
}
