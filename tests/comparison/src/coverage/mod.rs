//! What was seen of each request. A comparison fails where it never saw what its place must show.
//!
//! A request adds one file, which names its sights and watches for them, and a line in `REGISTERED`.

#[macro_use]
mod sights;
pub mod answers;
pub mod group_kinds;
pub mod groups;
pub mod halves;
pub mod leftovers;
pub mod limits;
pub mod lists;
pub mod purses;
pub mod washups;

pub use sights::{Rows, Seen, Sight, Subject};

use reckoning::programs::observer::{Applied, Made, Observer};
use reckoning::rules::book::Book;
use reckoning::rules::codec::Entry;
use reckoning::rules::limits::Limits;

/// Where sights are counted; each place must show what it can.
#[derive(Clone, Copy, Debug, PartialEq, Eq)]
pub enum Place {
    Trials,
    /// Listings in a book of some limits.
    Listings(Limits),
    /// One long feed of n participants.
    Soak(u8),
    /// Months through the exports.
    Months,
    /// Lists with the same payouts: in trials, and in both listings.
    Lists,
    ListedLists,
}

/// What a file registers: its subjects, and what watches the books of programs for them.
pub struct Request {
    pub subjects: &'static [&'static Subject],
    pub watch: Option<fn() -> Box<dyn Watch>>,
}

/// A line for each file.
static REGISTERED: &[&Request] = &[
    &answers::REQUEST,
    &groups::REQUEST,
    &halves::REQUEST,
    &purses::REQUEST,
    &washups::REQUEST,
    &limits::REQUEST,
    &lists::REQUEST,
    &leftovers::REQUEST,
];

/// Every subject, in the order of the requests.
pub fn subjects() -> impl Iterator<Item = &'static Subject> {
    REGISTERED.iter().flat_map(|request| request.subjects.iter().copied())
}

/// Watches the entries that come to a book, and its answers, for the sights of a request.
pub trait Watch: Send {
    fn made(&mut self, _: &Made, _: &mut Seen) {}

    /// An entry is about to be applied to this book.
    fn before(&mut self, _: &Book, _: &Entry) {}

    /// It was applied, and left this book.
    fn after(&mut self, _: &Book, _: &Applied, _: &mut Seen) {}
}

/// Watches for the sights of every request.
pub struct Watcher {
    watches: Vec<Box<dyn Watch>>,
    pub seen: Seen,
}

impl Default for Watcher {
    fn default() -> Watcher {
        let watches = REGISTERED.iter().filter_map(|request| request.watch.map(|new| new()));
        Watcher { watches: watches.collect(), seen: Seen::default() }
    }
}

impl Observer for Watcher {
    fn made(&mut self, made: &Made) {
        self.watches.iter_mut().for_each(|watch| watch.made(made, &mut self.seen));
    }

    fn before(&mut self, book: &Book, entry: &Entry) {
        self.watches.iter_mut().for_each(|watch| watch.before(book, entry));
    }

    fn after(&mut self, book: &Book, applied: &Applied) {
        self.watches.iter_mut().for_each(|watch| watch.after(book, applied, &mut self.seen));
    }
}

#[cfg(test)]
mod tests {
    use super::*;
    use reckoning::rules::limits::{DEMONSTRATION, MARKET};

    const PLACES: [Place; 8] = [
        Place::Trials,
        Place::Listings(MARKET),
        Place::Listings(DEMONSTRATION),
        Place::Soak(5),
        Place::Soak(64),
        Place::Months,
        Place::Lists,
        Place::ListedLists,
    ];

    /// Each cell of each table, and all of them once.
    fn cells() -> Vec<(&'static Subject, usize, usize)> {
        let rows = |it: &'static Subject| (0..it.rows.count()).map(move |row| (it, row));
        let columns = |(it, row): (&'static Subject, usize)| {
            (0..it.columns.len()).map(move |column| (it, row, column))
        };
        subjects().flat_map(rows).flat_map(columns).collect()
    }

    fn all_but(left_out: Option<usize>) -> Seen {
        let mut seen = Seen::default();
        for (place, (subject, row, column)) in cells().into_iter().enumerate() {
            seen.count(subject, row, column, u64::from(Some(place) != left_out));
        }
        seen
    }

    /// What a place must show, and nothing else, is missed where it was never seen.
    #[test]
    fn each_sight_that_is_needed_is_missed() {
        for (at, (subject, row, column)) in cells().into_iter().enumerate() {
            let seen = all_but(Some(at));
            for place in PLACES {
                let missed = seen.missing(place);
                let expected = usize::from((subject.needed)(place, row, column));
                assert_eq!(missed.len(), expected, "{place:?}: {missed:?}");
            }
        }
    }

    /// How many sights each place must show. A request that adds sights changes these numbers, and
    /// nothing else may.
    #[test]
    fn each_place_must_show_so_many_sights() {
        let needed = PLACES.map(|place| Seen::default().missing(place).len());
        assert_eq!(needed, [274, 162, 163, 107, 106, 52, 13, 10]);
        assert!(PLACES.iter().all(|&place| all_but(None).missing(place).is_empty()));
    }

    /// Some that are easily lost: at a bound, by a side, by one period limit alone.
    #[test]
    fn sights_at_bounds_are_needed() {
        let missing = |place: Place, what: &str| {
            Seen::default().missing(place).iter().any(|missing| missing == what)
        };
        let listings = Place::Listings(DEMONSTRATION);
        for (place, what, is_needed) in [
            (Place::Trials, "answers: 5", true),
            (listings, "answers: 5", false),
            (listings, "answers: 16", true),
            (listings, "feeds by n: 9", true),
            (listings, "purses: refused with 15 for one cent", true),
            (listings, "openings by period limit: refused with 7 3", true),
            (listings, "openings by period limit: refused with 7 12", false),
            (Place::Trials, "openings by period limit: refused with 7 12", true),
            (Place::Soak(64), "answers: 12", false),
            (Place::Soak(5), "answers: 12", true),
            (Place::Soak(5), "exact halves: went up side 1", true),
            (Place::Months, "shared tiers: in tier 1 by late receipts", true),
            (Place::Lists, "lists with the same payouts: late receipts that pay", true),
            (Place::ListedLists, "lists with the same payouts: late receipts that pay", true),
        ] {
            assert_eq!(missing(place, what), is_needed, "{place:?}: {what}");
        }
    }

    #[test]
    #[should_panic(expected = "is not registered")]
    fn a_subject_that_is_not_registered_cannot_be_counted() {
        static UNKNOWN: Subject = Subject {
            name: "unknown",
            rows: Rows::Numbered(1),
            columns: &[""],
            needed: |_, _, _| true,
        };
        Seen::default().count(&UNKNOWN, 0, 0, 1);
    }

    #[test]
    fn every_subject_has_a_name_of_its_own() {
        let mut names: Vec<&str> = subjects().map(|subject| subject.name).collect();
        names.sort_unstable();
        assert!(names.windows(2).all(|pair| pair[0] != pair[1]), "{names:?}");
    }
}
