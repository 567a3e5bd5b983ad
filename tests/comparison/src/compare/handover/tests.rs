//! The ways to hand over a feed against listings in this process, right ones and wrong ones.

use super::block_ends::{block_ends, Cuts};
use super::entry_by_entry::entry_by_entry;
use super::failures::failures;
use super::small_writes::small_writes;
use super::stand_in::{stand_in, Wrong};
use crate::report::Part;
use reckoning::rules::limits::{Limits, DEMONSTRATION, MARKET};
use std::time::Duration;

fn stands(way: impl Fn(&mut Part) -> String) -> bool {
    let mut part = Part::new("handover", false);
    let came_to = way(&mut part);
    part.end(&came_to)
}

/// Whether a stand-in of some limits stands over the feed of some limits.
fn in_small_writes(limits: Limits, of: Limits, wrong: Wrong) -> bool {
    stands(|part| small_writes(part, limits, &stand_in(of, wrong)))
}

fn at_block_ends(cuts: &Cuts, wrong: Wrong) -> bool {
    stands(|part| block_ends(part, cuts, &stand_in(MARKET, wrong)))
}

fn one_by_one(limits: Limits, patience: u64, wrong: Wrong) -> bool {
    let patience = Duration::from_millis(patience);
    stands(|part| entry_by_entry(part, limits, patience, &stand_in(limits, wrong)))
}

fn with_failures(limits: Limits, wrong: Wrong) -> bool {
    stands(|part| failures(part, limits, &stand_in(limits, wrong)))
}

/// Small writes never fill a block, and each must be read by itself.
#[test]
fn small_writes_tell_what_goes_wrong_between_reads() {
    for limits in [MARKET, DEMONSTRATION] {
        assert!(in_small_writes(limits, limits, Wrong::Nothing));
    }
    // It is no listing of the market's feeds, whose n passes its limit.
    assert!(!in_small_writes(MARKET, DEMONSTRATION, Wrong::Nothing));
    for part in [0, 1, 14, 15, 21, 22] {
        assert!(in_small_writes(MARKET, MARKET, Wrong::SkipsAfterPart(part)), "{part}");
    }
    for reads in [1_000, 1 << 16] {
        assert!(!in_small_writes(MARKET, MARKET, Wrong::EndsAfterReads(reads)), "{reads}");
    }
    for wrong in [Wrong::EndsAtShortRead, Wrong::SaysMore] {
        assert!(!in_small_writes(MARKET, MARKET, wrong), "{wrong:?}");
    }
}

/// Lines that are late are waited for in vain, and so for a short time.
#[test]
fn entries_one_by_one_tell_lines_that_are_late() {
    for limits in [MARKET, DEMONSTRATION] {
        assert!(one_by_one(limits, 60_000, Wrong::Nothing));
        for wrong in
            [Wrong::PrintsAtEnd, Wrong::HeaderAfterRead, Wrong::EndsAfterReads(5), Wrong::SaysMore]
        {
            assert!(!one_by_one(limits, 200, wrong), "{wrong:?}");
        }
    }
}

/// One place in five about the block ends is taken, or one about each, since here the time counts.
#[test]
fn block_ends_tell_a_byte_that_is_lost_there() {
    let (some, few) = (Cuts::some(5), Cuts::some(57));
    assert!(at_block_ends(&some, Wrong::Nothing));
    for wrong in [Wrong::EndsAtShortRead, Wrong::SkipsAtBlockEnd] {
        assert!(!at_block_ends(&some, wrong), "{wrong:?}");
    }
    for part in [0, 1, 14, 15, 21, 22] {
        assert!(!at_block_ends(&few, Wrong::SkipsAfterPart(part)), "{part}");
    }
    assert!(!at_block_ends(&few, Wrong::SaysMore));
    // Few reads take whole blocks to their end.
    for reads in [1_000, 1 << 16] {
        assert!(at_block_ends(&few, Wrong::EndsAfterReads(reads)), "{reads}");
    }
}

#[test]
fn failures_tell_where_nothing_is_said_and_where_the_listing_goes_on() {
    for limits in [MARKET, DEMONSTRATION] {
        for right in [Wrong::Nothing, Wrong::SaysMore] {
            assert!(with_failures(limits, right), "{right:?}");
        }
        for wrong in [
            Wrong::SilentOnInput,
            Wrong::SilentOnOutput,
            Wrong::ListsPart,
            Wrong::HeaderAfterRead,
            Wrong::ReadsOn,
            Wrong::SilentWithoutReader,
            Wrong::ReadsOnWithoutReader,
        ] {
            assert!(!with_failures(limits, wrong), "{wrong:?}");
        }
    }
}
