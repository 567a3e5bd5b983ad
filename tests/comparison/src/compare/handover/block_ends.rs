//! A feed of several blocks that ends, or is read in part, at each byte about a block's end.

use super::inputs::{file, run_on_packets};
use super::{entry_ends, start_of_long, Run, BLOCK};
use crate::judge::{first_difference, judge_listing};
use crate::report::{grouped, Part};
use crate::workers::judge_each;
use reckoning::programs::listing::listing;
use reckoning::rules::codec::LONGEST_ENTRY;
use reckoning::rules::limits::MARKET;
use std::collections::BTreeSet;

/// A feed of n = 5, so that some participants do not exist.
const SEED: u64 = 3;
const MOST_BYTES: usize = 4 * BLOCK + BLOCK / 2;
/// How far about a block's end feeds are cut; an entry is shorter.
const ABOUT: usize = 28;

/// A feed and the places at which it is cut.
pub struct Cuts {
    feed: Vec<u8>,
    entry_ends: Vec<usize>,
    /// The ends of the blocks where each read fills the room behind the bytes kept.
    block_ends: Vec<usize>,
    /// Every byte about the ends of the blocks.
    places: Vec<usize>,
}

impl Cuts {
    /// Cuts after every byte about every block's end.
    pub fn every() -> Cuts {
        let feed = start_of_long(MARKET, SEED, MOST_BYTES);
        let entry_ends = entry_ends(&feed);
        let mut cuts = Cuts { feed, entry_ends, block_ends: Vec::new(), places: Vec::new() };
        cuts.block_ends = cuts.read_ends(None);
        // The last read does not fill its block.
        cuts.block_ends.pop();
        let about = |&end: &usize| end - ABOUT..=end + ABOUT;
        cuts.places = cuts.block_ends.iter().flat_map(about).collect();
        cuts
    }

    /// A part of them, since in the tests the time counts.
    #[cfg(test)]
    pub fn some(step: usize) -> Cuts {
        let every = Cuts::every();
        let places = every.places.into_iter().step_by(step).collect();
        Cuts { places, ..every }
    }

    /// How many bytes of an entry stand before a place within it.
    fn part_at(&self, place: usize) -> usize {
        let whole = self.entry_ends.partition_point(|&end| end <= place);
        whole.checked_sub(1).map_or(0, |last| place - self.entry_ends[last])
    }

    /// The ends of the reads, each as long as there is room for; one ends early if a place is given.
    fn read_ends(&self, early: Option<usize>) -> Vec<usize> {
        let mut ends = Vec::new();
        let mut at = 0;
        while at < self.feed.len() {
            let full = self.feed.len().min(at + BLOCK - self.part_at(at));
            let within = |&place: &usize| at < place && place < full;
            at = early.filter(within).unwrap_or(full);
            ends.push(at);
        }
        ends
    }

    /// For each length of an entry's part, a first read that makes the next block end after it.
    fn first_reads(&self) -> Vec<usize> {
        let first = |length| {
            self.entry_ends.iter().copied().find(|&end| self.part_at(end + BLOCK) == length)
        };
        (0..LONGEST_ENTRY).filter_map(first).collect()
    }

    /// Judges a program where the feed, as a file, ends at a place.
    fn judge_ended(&self, place: usize, run: &impl Run) -> Result<(), String> {
        let feed = &self.feed[..place];
        let found = run(file(feed)?.into(), None)?.without_errors()?;
        judge_listing(MARKET, feed, &found, &mut ()).map(|_| ())
    }

    /// Judges a program where a read ends at a place: the lengths of the parts of entries at the
    /// ends of the full blocks.
    fn judge_read(
        &self,
        place: usize,
        reckoned: &[u8],
        run: &impl Run,
    ) -> Result<Vec<usize>, String> {
        let ends = self.read_ends(Some(place));
        let found = run_on_packets(run, &self.feed, &ends)?.0.without_errors()?;
        if let Some(difference) = first_difference(reckoned, &found) {
            return Err(difference);
        }
        let full = ends.iter().filter(|&&end| end != place && end < self.feed.len());
        Ok(full.map(|&end| self.part_at(end)).collect())
    }
}

/// Holds a program to the reckoning over feeds cut about block ends; what was covered.
pub fn block_ends(part: &mut Part, cuts: &Cuts, run: &impl Run) -> String {
    let judge = |&place: &usize| cuts.judge_ended(place, run);
    for (place, what) in judge_each(part, &cuts.places, judge, |()| ()) {
        part.problem(&format!("feed long seed {SEED} ended after byte {place}: {what}"));
    }
    let (reckoned, mut kept) = (listing(&cuts.feed), BTreeSet::new());
    let places = [&cuts.places[..], &cuts.first_reads()].concat();
    let judge = |&place: &usize| cuts.judge_read(place, &reckoned, run);
    for (place, what) in judge_each(part, &places, judge, |parts| kept.extend(parts)) {
        part.problem(&format!("feed long seed {SEED} with a read up to byte {place}: {what}"));
    }
    let ends = cuts.block_ends.len();
    part.require_that(ends >= 4, "block ends");
    part.require_that(kept.len() == LONGEST_ENTRY, "lengths of an entry's part at a block's end");
    format!(
        "{} feeds cut about {ends} block ends",
        grouped((cuts.places.len() + places.len()) as u64)
    )
}
