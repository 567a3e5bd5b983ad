//! Ways to hand a feed to a listing: in small pieces, entry by entry, cut about the ends of its blocks,
//! and through an input or an output that fails.

mod block_ends;
mod entry_by_entry;
mod failures;
mod inputs;
mod small_writes;
#[cfg(test)]
mod stand_in;
#[cfg(test)]
mod tests;

use crate::compare::program::{self, Printed};
use crate::generate::feeds;
use crate::report::Part;
use reckoning::rules::codec;
use reckoning::rules::limits::{Limits, MARKET};
use std::os::fd::OwnedFd;

/// The bytes that the listing reads at once.
pub const BLOCK: usize = 1 << 16;

/// Gives what a program prints for a standard input, and for a standard output if there is one.
trait Run: Fn(OwnedFd, Option<OwnedFd>) -> Result<Printed, String> + Sync {}

impl<F: Fn(OwnedFd, Option<OwnedFd>) -> Result<Printed, String> + Sync> Run for F {}

/// The places after n and after each entry that can be read.
fn entry_ends(feed: &[u8]) -> Vec<usize> {
    let mut ends = vec![1];
    let mut place = 1;
    while let Ok((_, next)) = codec::read(feed, place) {
        ends.push(next as usize);
        place = next;
    }
    ends
}

/// The start of a feed of 100,000 entries for a book of some limits: whole entries, up to so many
/// bytes.
fn start_of_long(limits: Limits, seed: u64, most: usize) -> Vec<u8> {
    let mut feed = feeds::feed_within(limits, seed, "long").expect("a kind that exists");
    let ends = entry_ends(&feed);
    let end = ends.iter().rfind(|&&end| end <= most);
    feed.truncate(*end.expect("room for n"));
    feed
}

/// Holds the program at a path, whose book has some limits, to the reckoning, however a feed is handed
/// over; true only if all agrees. The ends of blocks are the same for both programs.
pub fn handover(name: &str, limits: Limits, path: &str, details: bool) -> bool {
    let mut part = Part::new(name, details);
    let run = |input, output| program::run_on(path, input, output);
    let mut came_to = vec![small_writes::small_writes(&mut part, limits, &run)];
    came_to.push(entry_by_entry::entry_by_entry(&mut part, limits, program::LONGEST, &run));
    if limits == MARKET {
        came_to.push(block_ends::block_ends(&mut part, &block_ends::Cuts::every(), &run));
    }
    came_to.push(failures::failures(&mut part, limits, &run));
    part.end(&came_to.join(", "))
}
