//! What a run says: a line for each part with its count and its seconds, progress on a terminal, and
//! details where they are asked for or the part fails.

use crate::coverage::{Place, Seen};
use std::env;
use std::fs;
use std::io::{self, IsTerminal, Write};
use std::sync::atomic::{AtomicU64, Ordering};
use std::time::Instant;

/// Problems printed in full; the others are only counted.
const SHOWN: u64 = 10;
/// Progress is printed at most once in so many milliseconds.
const EVERY: u64 = 200;

/// A part of a run.
pub struct Part {
    name: String,
    start: Instant,
    /// How many things are done, and when that was printed last.
    done: AtomicU64,
    printed: AtomicU64,
    on_terminal: bool,
    with_details: bool,
    details: String,
    problems: u64,
}

/// A number with its thousands apart.
pub fn grouped(number: u64) -> String {
    let digits = number.to_string();
    let place = |(at, digit): (usize, char)| {
        let left = digits.len() - at;
        let apart = at > 0 && left.is_multiple_of(3);
        apart.then_some(',').into_iter().chain([digit])
    };
    digits.chars().enumerate().flat_map(place).collect()
}

impl Part {
    pub fn new(name: &str, with_details: bool) -> Part {
        Part {
            name: name.into(),
            start: Instant::now(),
            done: AtomicU64::new(0),
            printed: AtomicU64::new(0),
            on_terminal: io::stderr().is_terminal(),
            with_details,
            details: String::new(),
            problems: 0,
        }
    }

    /// One more thing is done.
    pub fn done(&self) {
        let done = self.done.fetch_add(1, Ordering::Relaxed) + 1;
        let now = self.start.elapsed().as_millis() as u64;
        let last = self.printed.load(Ordering::Relaxed);
        if self.on_terminal && now >= last + EVERY {
            self.printed.store(now, Ordering::Relaxed);
            eprint!("\r{}: {} ...", self.name, grouped(done));
        }
    }

    /// Clears the line of progress.
    fn clear(&self) {
        if self.on_terminal {
            eprint!("\r\x1b[K");
            io::stderr().flush().ok();
        }
    }

    /// Something that is of use only to who asks for it, or where the part fails.
    pub fn detail(&mut self, text: &str) {
        self.details.push_str(text.trim_end());
        self.details.push('\n');
    }

    /// Something that must not be.
    pub fn problem(&mut self, what: &str) {
        self.problems += 1;
        if self.problems <= SHOWN {
            self.clear();
            println!("{}: {what}", self.name);
        }
    }

    /// The same, with the input that shows it, which is kept where the problem is printed.
    pub fn differs(&mut self, name: &str, input: &[u8], what: &str) {
        let kept = if self.problems < SHOWN { self.keep(name, input) } else { String::new() };
        self.problem(&format!("{name} differs: {what}{kept}"));
    }

    /// Keeps an input in a file, and says where.
    fn keep(&self, name: &str, input: &[u8]) -> String {
        let file = format!("comparison-{}-{name}", self.name).replace([' ', ',', '/'], "-");
        let path = env::temp_dir().join(file);
        match fs::write(&path, input) {
            Ok(()) => format!("\n  its input: {}", path.display()),
            Err(error) => format!("\n  its input is not kept: {error}"),
        }
    }

    /// Takes a judgement; what was judged right, if it was.
    pub fn take<T>(&mut self, name: &str, judged: Result<T, String>) -> Option<T> {
        judged.map_err(|what| self.problem(&format!("{name}: {what}"))).ok()
    }

    /// Each sight that a place must show must have been seen.
    pub fn require(&mut self, place: Place, seen: &Seen) {
        self.detail(&seen.details());
        for missing in seen.missing(place) {
            self.problem(&format!("never seen: {missing}"));
        }
    }

    /// A part that covers too little proves nothing.
    pub fn require_that(&mut self, enough: bool, what: &str) {
        if !enough {
            self.problem(&format!("too little was compared: {what}"));
        }
    }

    /// Ends the part with what it came to; whether there was no problem.
    pub fn end(self, came_to: &str) -> bool {
        self.clear();
        if self.with_details || self.problems > 0 {
            print!("{}", self.details);
        }
        let seconds = self.start.elapsed().as_secs_f64();
        let problems = match self.problems {
            0 => String::new(),
            count => format!(", FAILED with {count} problems"),
        };
        println!("{}: {came_to}{problems}, {seconds:.1} s", self.name);
        self.problems == 0
    }
}

#[cfg(test)]
mod tests {
    use super::*;

    #[test]
    fn thousands_stand_apart() {
        let numbers = [0, 7, 999, 1_000, 12_345, 1_234_567];
        let texts = ["0", "7", "999", "1,000", "12,345", "1,234,567"];
        assert_eq!(numbers.map(grouped), texts);
    }

    #[test]
    fn a_part_stands_where_there_was_no_problem() {
        let part = || Part::new("part", false);
        assert!(part().end("all"));
        let mut with_problem = part();
        assert_eq!(with_problem.take("one", Ok(1)), Some(1));
        assert_eq!(with_problem.take::<u64>("other", Err("wrong".into())), None);
        assert!(!with_problem.end("all but one"));
        let mut too_little = part();
        too_little.require_that(false, "feeds");
        assert!(!too_little.end("no feeds"));
        let mut unseen = part();
        unseen.require(Place::Trials, &Seen::default());
        assert!(!unseen.end("nothing seen"));
    }
}
