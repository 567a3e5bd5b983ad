//! Feeds that cannot be read to their end, each listed by a program and by the reckoning.

mod bytes;
mod noise;
#[cfg(test)]
mod tests;

use crate::compare::program;
use crate::coverage::answers::ANSWERS;
use crate::coverage::Seen;
use crate::judge::judge_listing;
use crate::report::{grouped, Part};
use crate::workers::judge_each;
use reckoning::rules::limits::{Limits, DEMONSTRATION, MARKET};
use reckoning::rules::refusals::*;

/// The values of a byte.
const VALUES: usize = 1 << 8;
/// One malformed feed of so many is put to the demonstration too, but of random bytes at least so many.
/// The number is odd, so that every value of a byte comes.
const SHARE: usize = 17;
const LEAST_RANDOM: usize = 2_000;

/// Gives what a program prints for a feed.
type Run<'a> = dyn Fn(&[u8]) -> Result<Vec<u8>, String> + Sync + 'a;

/// Feeds that are made by their numbers, since they are too many to be kept.
struct Feeds {
    name: &'static str,
    numbers: Vec<usize>,
    feed: Box<dyn Fn(usize) -> Vec<u8> + Sync>,
    /// The answers that must be among theirs.
    answers: Vec<u8>,
}

/// What feeds came to.
#[derive(Default)]
struct Judged {
    lines: u64,
    seen: Seen,
    /// The numbers of those that differed, and how.
    different: Vec<(usize, String)>,
}

/// One of so many of the feeds for a program whose book has some limits, and so many of random bytes.
fn every_feed(limits: Limits, step: usize, random: usize) -> [Feeds; 3] {
    // Values about a bound make a purse pass its own, and an earlier period lie outside.
    let of_bounds = [PURSE_PASSES_BOUND, EARLIER_PERIOD_OUTSIDE];
    let seen = [&[ACCEPTED, TOO_FEW_BYTES, KIND_UNKNOWN, FIELD_OUTSIDE], &of_bounds[..]].concat();
    // The scene's three periods, and n of 64, are at a demonstration's limit and above it.
    let at_limits: &[u8] = if limits == MARKET { &[] } else { &[N_REFUSED, PERIODS_AT_LIMIT] };
    let (places, cuts) = (bytes::every_place(), bytes::every_cut());
    [
        Feeds {
            name: "every byte",
            numbers: (0..VALUES * places.len()).step_by(step).collect(),
            feed: Box::new(move |number| {
                let (mut feed, place) = places[number / VALUES].clone();
                feed[place] = (number % VALUES) as u8;
                feed
            }),
            answers: [&seen, at_limits].concat(),
        },
        Feeds {
            name: "every cut",
            numbers: (0..cuts.len()).step_by(step).collect(),
            feed: Box::new(move |number| cuts[number].clone()),
            answers: vec![ACCEPTED, TOO_FEW_BYTES],
        },
        Feeds {
            name: "random bytes",
            numbers: (0..random).collect(),
            feed: Box::new(|number| noise::feed(number as u64)),
            answers: [&seen[..], &[N_REFUSED]].concat(),
        },
    ]
}

impl Feeds {
    /// Holds a program, whose book has some limits, to the reckoning.
    fn judge(&self, part: &Part, limits: Limits, run: &Run) -> Judged {
        let mut judged = Judged::default();
        let judge = |&number: &usize| {
            let feed = (self.feed)(number);
            let found = run(&feed)?;
            let count = judge_listing(limits, &feed, &found, &mut ())?;
            Ok((count.answers, found.iter().filter(|&&byte| byte == b'\n').count()))
        };
        let wrong = judge_each(part, &self.numbers, judge, |(answers, lines)| {
            judged.lines += lines as u64;
            judged.seen.count_all(&ANSWERS, &answers);
        });
        judged.different = wrong.into_iter().map(|(&number, what)| (number, what)).collect();
        judged
    }

    /// Ends the part; whether nothing differed and each answer that must be was seen.
    fn stands(&self, mut part: Part, judged: &Judged) -> bool {
        for (number, what) in &judged.different {
            let feed = (self.feed)(*number);
            let hex: String = feed.iter().map(|byte| format!("{byte:02x}")).collect();
            part.problem(&format!("{what}\n  its feed: {hex}"));
        }
        part.detail(&judged.seen.details());
        for &number in &self.answers {
            let seen = judged.seen.cell(&ANSWERS, number.into(), 0) > 0;
            part.require_that(seen, &format!("no entry was answered {number}"));
        }
        let (feeds, lines) = (grouped(self.numbers.len() as u64), grouped(judged.lines));
        part.end(&format!("{feeds} feeds, {lines} lines"))
    }
}

/// Holds a program, whose book has some limits, to the reckoning over feeds.
fn judge_all(of: &str, feeds: &[Feeds], (limits, run): (Limits, &Run), details: bool) -> bool {
    let stands = |feeds: &Feeds| {
        let part = Part::new(&format!("{of}{}", feeds.name), details);
        let judged = feeds.judge(&part, limits, run);
        feeds.stands(part, &judged)
    };
    // Each part says what it came to, whether or not one before it failed.
    feeds.iter().map(stands).fold(true, |all, stands| all && stands)
}

/// Holds the programs at two paths to the reckoning over malformed feeds, so many of them of random
/// bytes; true only if all agrees.
pub fn malformed(listing: &str, demonstration: &str, random: usize, details: bool) -> bool {
    let of_listing = every_feed(MARKET, 1, random);
    let run = |feed: &[u8]| program::run(listing, feed);
    let listed = judge_all("", &of_listing, (MARKET, &run), details);
    let share = (random / SHARE).max(LEAST_RANDOM).min(random);
    let of_demonstration = every_feed(DEMONSTRATION, SHARE, share);
    let run = |feed: &[u8]| program::run(demonstration, feed);
    judge_all("demonstration, ", &of_demonstration, (DEMONSTRATION, &run), details) && listed
}
