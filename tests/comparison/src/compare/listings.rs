//! What a program lists for feeds, held to the reckoning's listing and to demand 3.

use crate::compare::inputs::Input;
use crate::compare::program;
use crate::coverage::answers::{ANSWERS, PARTICIPANTS};
use crate::coverage::{Place, Seen, Watcher};
use crate::judge::demand3::Count;
use crate::judge::judge_listing;
use crate::report::{grouped, Part};
use crate::workers::judge_each;
use reckoning::rules::limits::{Limits, MARKET};

/// The least feeds and settled months that the program of a book must have listed.
pub fn least(limits: Limits) -> (u64, u64) {
    match limits {
        MARKET => (500, 20_000),
        _ => (300, 5_000),
    }
}

/// What listings came to.
#[derive(Clone, Debug, Default)]
pub struct Listed {
    pub feeds: u64,
    pub months: u64,
    pub with_arrears: u64,
    pub late_receipts: u64,
    pub seen: Seen,
}

impl Listed {
    pub fn take(&mut self, n: Option<u8>, count: &Count, seen: &Seen) {
        self.feeds += 1;
        self.months += count.settled_months;
        self.with_arrears += count.months_with_arrears;
        self.late_receipts += count.late_receipts;
        self.seen.add(seen);
        self.seen.count_all(&ANSWERS, &count.answers);
        n.into_iter().for_each(|n| self.seen.count(&PARTICIPANTS, n.into(), 0, 1));
    }

    /// Ends a part of listings in books of some limits, which must have covered enough.
    pub fn end(&self, mut part: Part, limits: Limits) -> bool {
        part.require(Place::Listings(limits), &self.seen);
        let (feeds, months) = least(limits);
        part.require_that(self.feeds >= feeds, "feeds");
        part.require_that(self.months >= months, "settled months");
        part.end(&format!(
            "{} feeds, {} settled months ({} with arrears), {} late receipts",
            grouped(self.feeds),
            grouped(self.months),
            grouped(self.with_arrears),
            grouped(self.late_receipts)
        ))
    }
}

/// What the program at a path lists for a feed, where it is right, and what it came to.
pub fn judge(limits: Limits, path: &str, feed: &[u8]) -> Result<(Vec<u8>, Count, Seen), String> {
    let (found, mut watcher) = (program::run(path, feed)?, Watcher::default());
    let count = judge_listing(limits, feed, &found, &mut watcher)?;
    Ok((found, count, watcher.seen))
}

/// Lists feeds by the program at a path, whose book has some limits; true only if all agree and enough
/// was compared.
pub fn compare(name: &str, limits: Limits, path: &str, feeds: Vec<Input>, details: bool) -> bool {
    let (mut part, mut listed) = (Part::new(name, details), Listed::default());
    let judge = |input: &Input| -> Result<_, String> {
        let feed = input.bytes();
        let (_, count, seen) = judge(limits, path, &feed)?;
        Ok((feed.first().copied(), count, seen))
    };
    let take = |(n, count, seen)| listed.take(n, &count, &seen);
    for (input, what) in judge_each(&part, &feeds, judge, take) {
        part.differs(&input.name, &input.bytes(), &what);
    }
    listed.end(part, limits)
}
