//! What the trial program prints for calls, held to the reckoning's lines.

use crate::compare::inputs::Input;
use crate::compare::program;
use crate::coverage::answers::{ANSWERS, READ, ROUNDS, WRITTEN};
use crate::coverage::{Place, Seen, Watcher};
use crate::judge::{judge_trial, Calls};
use crate::report::{grouped, Part};
use crate::workers::judge_each;

/// The least calls that a comparison must have covered.
pub const LEAST_CALLS: u64 = 100_000;

/// What trials came to.
#[derive(Clone, Debug, Default)]
pub struct Tried {
    pub trials: u64,
    pub calls: u64,
    pub seen: Seen,
}

impl Tried {
    pub fn take(&mut self, calls: &Calls, seen: &Seen) {
        self.trials += 1;
        self.calls += calls.calls;
        self.seen.add(seen);
        self.seen.count_all(&ANSWERS, &calls.answers);
        self.seen.count_all(&READ, &calls.read);
        self.seen.count_all(&WRITTEN, &calls.written);
        self.seen.count_all(&ROUNDS, &calls.rounds);
    }

    /// Ends a part of trials, which must have covered enough.
    pub fn end(&self, mut part: Part) -> bool {
        part.require(Place::Trials, &self.seen);
        part.require_that(self.calls >= LEAST_CALLS, "calls");
        part.end(&format!("{} trials of {} calls", grouped(self.trials), grouped(self.calls)))
    }
}

/// What the program at a path prints for calls, where it is right; and what that came to.
pub fn judge(path: &str, calls: &[u8]) -> Result<(Vec<u8>, Calls, Seen), String> {
    let (found, mut watcher) = (program::run(path, calls)?, Watcher::default());
    let count = judge_trial(calls, &found, &mut watcher)?;
    Ok((found, count, watcher.seen))
}

/// Puts trials to the program at a path; true only if all agree and enough was compared.
pub fn compare(path: &str, trials: Vec<Input>, details: bool) -> bool {
    let (mut part, mut tried) = (Part::new("trials", details), Tried::default());
    let judge = |input: &Input| judge(path, &input.bytes());
    let take = |(_, calls, seen): (Vec<u8>, _, _)| tried.take(&calls, &seen);
    for (input, what) in judge_each(&part, &trials, judge, take) {
        part.differs(&input.name, &input.bytes(), &what);
    }
    tried.end(part)
}
