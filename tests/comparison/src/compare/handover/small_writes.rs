//! A feed in very many small writes, each of which the program must read by itself.

use super::inputs::run_on_packets;
use super::{entry_ends, start_of_long, Run};
use crate::coverage::{leftovers, purses, washups, Seen, Watcher};
use crate::generate::random::Random;
use crate::judge::demand3::Count;
use crate::judge::judge_listing;
use crate::report::{grouped, Part};
use reckoning::rules::limits::Limits;
use reckoning::rules::refusals::ACCEPTED;

/// A feed whose n is the participant limit, so that a settlement prints many payouts.
const SEED: u64 = 1;
const MOST_BYTES: usize = 250_000;
/// A write has 1 to so many bytes.
const MOST_WRITTEN: u64 = 4;
/// The least that must be covered; the writes are more than 16 bits can count.
const LEAST_WRITES: u64 = 1 << 16;
const LEAST_ENTRIES: usize = 5_000;

/// The ends of writes of random sizes.
fn write_ends(length: usize) -> Vec<usize> {
    let mut random = Random::new(SEED);
    let mut ends = Vec::new();
    let mut at = 0;
    while at < length {
        at = length.min(at + random.between(1, MOST_WRITTEN) as usize);
        ends.push(at);
    }
    ends
}

/// Requires that a feed had refused entries, washups, settlements, some of them with draws on purses,
/// late money and tiers shared with leftover cents.
fn require_various(part: &mut Part, count: &Count, seen: &Seen) {
    let refused: u64 = count.answers[usize::from(ACCEPTED) + 1..].iter().sum();
    for (times, what) in [
        (refused, "refused entries"),
        (washups::added(seen), "washups that add cents"),
        (count.settled_months, "settled months"),
        (purses::drawn(seen), "draws on purses"),
        (count.late_receipts, "late receipts"),
        (leftovers::with_cents(seen), "tiers shared with leftover cents"),
    ] {
        part.require_that(times > 0, &format!("{what} in small writes"));
    }
}

/// Holds a program, whose book has some limits, to the reckoning over a feed in small writes; what was
/// covered.
pub fn small_writes(part: &mut Part, limits: Limits, run: &impl Run) -> String {
    let feed = start_of_long(limits, SEED, MOST_BYTES);
    let (entries, ends) = (entry_ends(&feed).len() - 1, write_ends(feed.len()));
    let mut watcher = Watcher::default();
    let judged = run_on_packets(run, &feed, &ends).and_then(|(printed, written)| {
        let found = printed.without_errors()?;
        Ok((judge_listing(limits, &feed, &found, &mut watcher)?, written))
    });
    let name = format!("small writes of feed long seed {SEED}, {} bytes", feed.len());
    let (count, written) = part.take(&name, judged).unwrap_or_default();
    require_various(part, &count, &watcher.seen);
    part.require_that(written >= LEAST_WRITES && entries >= LEAST_ENTRIES, "small writes");
    format!("{} small writes of {} entries", grouped(written), grouped(entries as u64))
}
