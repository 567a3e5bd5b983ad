//! What a comparison must have covered.

use crate::compare::handover::BLOCK;
use crate::compare::inputs::{self, WAITING_OUTPUT};
use crate::compare::listings::{least, Listed};
use crate::compare::trials::{Tried, LEAST_CALLS};
use crate::coverage::answers;
use crate::coverage::{subjects, Seen, Subject, Watcher};
use crate::report::Part;
use crate::trials;
use crate::Named;
use reckoning::programs::listing::listing_within;
use reckoning::programs::trial;
use reckoning::rules::book::Book;
use reckoning::rules::limits::{DEMONSTRATION, MARKET};

fn part() -> Part {
    Part::new("comparison", false)
}

/// Each cell of some subjects once.
fn see_all(seen: &mut Seen, subjects: impl Iterator<Item = &'static Subject>) {
    for subject in subjects {
        for row in 0..subject.rows.count() {
            (0..subject.columns.len()).for_each(|column| seen.count(subject, row, column, 1));
        }
    }
}

/// What some trials show, with all that is counted of lines.
fn tried(trials: impl Iterator<Item = Named>) -> Tried {
    let mut watcher = Watcher::default();
    for (_, calls) in trials {
        trial::lines(Book::make, &calls, &mut watcher);
    }
    see_all(&mut watcher.seen, answers::REQUEST.subjects.iter().copied());
    Tried { trials: 1, calls: LEAST_CALLS, seen: watcher.seen }
}

/// Trials from seeds and makings show all that programs are watched for, without the cases by hand.
/// Those of one request alone do not.
#[test]
fn trials_from_seeds_cover_all_that_trials_must_show() {
    let all = trials::of_requests().chain(trials::of_every_sort());
    let from_seeds = all.filter(|(name, _)| name.contains(" seed ") || name.contains("making "));
    let tried_all = tried(from_seeds);
    assert!(tried_all.end(part()));
    assert!(!Tried { calls: LEAST_CALLS - 1, ..tried_all }.end(part()));
    assert!(!tried(trials::of('c').into_iter()).end(part()));
}

/// Books of groups of one and the market's limits show nothing of groups and of other limits.
#[test]
fn what_a_book_cannot_show_does_not_count() {
    let of_every_sort = tried(trials::of_every_sort().into_iter().take(40)).seen;
    for missing in ["groups: late receipts in them", "limits: late receipts in such books"] {
        let place = crate::coverage::Place::Trials;
        assert!(of_every_sort.missing(place).contains(&missing.to_string()), "{missing}");
    }
}

#[test]
fn listings_must_have_covered_enough() {
    for limits in [MARKET, DEMONSTRATION] {
        let (feeds, months) = least(limits);
        let mut seen = Seen::default();
        see_all(&mut seen, subjects());
        let listed = Listed { feeds, months, seen, ..Listed::default() };
        assert!(listed.end(part(), limits));
        assert!(!Listed { feeds: feeds - 1, ..listed.clone() }.end(part(), limits));
        assert!(!Listed { months: months - 1, ..listed.clone() }.end(part(), limits));
        assert!(!Listed { seen: Seen::default(), ..listed }.end(part(), limits));
    }
}

/// The listing writes out where more bytes than these wait, before it has listed the whole block.
#[test]
fn a_block_of_a_feed_gives_more_output_than_may_wait() {
    const MOST_WAITING: usize = 212_992;
    let of_books = [(MARKET, inputs::feeds()), (DEMONSTRATION, inputs::demonstrated_feeds())];
    for (limits, feeds) in of_books {
        let feed = feeds.iter().find(|input| input.name == WAITING_OUTPUT).expect("among them");
        let listed = listing_within(limits, &feed.bytes()[..BLOCK]);
        assert!(listed.len() > MOST_WAITING, "{limits:?}: {}", listed.len());
    }
}
