//! What is to be seen in the cases: in some of them just what is told here by hand.

use crate::cases::{every, of, Case};
use crate::coverage::halves::Half;
use crate::coverage::leftovers::{Held, Sight as Tier};
use crate::coverage::purses::{Sight as Purse, PURSES};
use crate::coverage::washups::{Sight as Washup, WASHUPS};
use crate::coverage::{Seen, Sight, Subject, Watcher};
use reckoning::programs::{calls, listing, trial};
use reckoning::rules::book::Book;
use reckoning::rules::codec::Entry;
use reckoning::rules::limits::MARKET;
use reckoning::rules::washup;
use std::fmt::Debug;

/// The sights of some cases, each with how often it is seen, by column.
const OF_PURSES: [(&str, &str); 9] = [
    ("a purse that covers a part", "NoPeriod 1, Part 1, Late 2"),
    (
        "a purse with more than is unpaid, and a second period",
        "NoPeriod 1, Part 1, More 1, FromRest 1, Late 1, ACentAbove 1",
    ),
    ("a purse where nothing is unpaid", "NoPeriod 1, PaidByReceipts 1"),
    ("a purse beside a receipt", "Noticed 1, Part 1, BesideReceipts 1, Late 1, ACentAbove 1"),
    ("a purse of a receiver", "NoPeriod 2, NothingPayable 2"),
    ("purses at their bound", "NoPeriod 5, ToBound 4, PastBound 6, More 2"),
    (
        "a payer that older arrears bar, and then free",
        "Settled 2, InArrears 1, All 2, Barred 1, Freed 1, BesideBarred 1, OthersArrears 1",
    ),
    ("arrears in a later period", "Noticed 1, Settled 1, InArrears 1, More 1, LaterArrears 1"),
    ("late money beside a purse", "Settled 2, InArrears 2"),
];

/// On side 0 and on side 1.
const OF_WASHUPS: [(&str, &str); 3] = [
    (
        "there and back",
        "Up 1 1, Down 1 1, OtherIfRoundedOnce 2 2, OldHalfDown 1 1, OldHalfUp 1 1, \
         NewHalfDown 1 1, NewHalfUp 1 1, OneBelow 2 2, NotInBook 2 2, ThereAndBack 1 1",
    ),
    (
        "the example feed",
        "Up 2 0, Down 1 1, SameCents 0 1, OtherIfRoundedOnce 1 0, OldHalfUp 1 0, NewHalfDown 1 0, \
         OneBelow 0 1, TwentyFourBelow 2 0, NotInBook 3 2, ThereAndBack 1 0, TwentyFiveBelow 1 0",
    ),
    (
        "side 0 to its bound first",
        "Up 1 0, Down 2 0, SameQuantity 4 3, SameCents 2 2, OldHalfUp 1 0, TwentyFourBelow 9 5, \
         NotInBook 9 5, UpToBound 1 0, DownToBound 1 0, UpPastBound 3 1, DownPastBound 2 1, \
         DownStatedFull 2 0, UpOtherHasRoom 2 0, DownStatedHasRoom 0 1, NothingOnFull 6 5, \
         LargerPasses 2 0, ThePeriodItself 10 9, With11 5 4",
    ),
];

/// By settlements and by late receipts; what a last late receipt meets in full shares nothing. Then the
/// cents that a settlement leaves held, all of which are those of rounds.
const OF_LEFTOVERS: [(&str, &str); 4] = [
    (
        "equal remainders",
        "OneCent 0 2, MoreCents 1 0, Tier5 1 2, AllButOne 1 0, EqualsCut 1 1, ToHigher 0 1, \
         AllWanted 0 1",
    ),
    (
        "the lower number of less",
        "NoCent 0 1, OneCent 1 0, Tier5 1 0, EqualsCut 1 0, UnlikeEqualsCut 1 0, ToLess 1 0, \
         AllWanted 1 0",
    ),
    (
        "a tier in the middle",
        "OneCent 1 0, MoreCents 0 1, Tier3 1 1, AfterMet 1 0, BeforeWanted 1 1, AllButOne 0 1, \
         EqualsCut 1 1, ToLess 0 1, AllWanted 0 1",
    ),
    (
        "rounds that hold two cents",
        "OneCent 1 1, Tier5 1 1, EqualsCut 1 0, ToLess 0 1, AllWanted 1 1, \
         Cents 1, Most 1, BesideLeftovers 1, Late 1",
    ),
];

fn seen_in_trial(calls: &[u8]) -> Seen {
    let mut watcher = Watcher::default();
    trial::lines(Book::make, calls, &mut watcher);
    watcher.seen
}

fn seen_in_listing(case: &Case) -> Seen {
    let mut watcher = Watcher::default();
    listing::lines((MARKET, Book::make), &case.feed(), &mut watcher);
    watcher.seen
}

/// The sights of a sort that were seen, with their counts.
fn shown<S: Sight + Debug>(seen: &Seen, all: &[S]) -> Vec<String> {
    let counts = |&sight: &S| {
        let counts = seen.by_column(sight).iter().map(u64::to_string).collect::<Vec<_>>();
        (seen.of(sight) > 0).then(|| format!("{sight:?} {}", counts.join(" ")))
    };
    all.iter().filter_map(counts).collect()
}

/// Holds what is seen in cases of a request to what is told of them.
fn hold(request: char, expected: &[(&str, &str)], shown: fn(&Seen) -> Vec<String>) {
    let cases = of(request);
    for (name, sights) in expected {
        let case = cases.iter().find(|case| case.name.ends_with(&format!(", {name}")));
        let seen = seen_in_trial(&case.expect("a case of that name").trial());
        assert_eq!(shown(&seen).join(", "), *sights, "{name}");
    }
}

#[test]
fn each_case_shows_what_it_has() {
    hold('c', &OF_PURSES, |seen| shown(seen, Purse::ALL));
    hold('e', &OF_WASHUPS, |seen| shown(seen, Washup::ALL));
    hold('g', &OF_LEFTOVERS, |seen| [shown(seen, Tier::ALL), shown(seen, Held::ALL)].concat());
}

/// Where its trial is in a market book; the call that makes another names groups, which no feed does.
#[test]
fn each_case_shows_the_same_as_a_trial_and_as_a_feed() {
    for case in every().filter(|case| case.books[0] == MARKET) {
        assert_eq!(seen_in_trial(&case.trial()), seen_in_listing(&case), "{}", case.name);
    }
}

#[test]
fn the_cases_of_energy_show_every_sight_of_halves() {
    let all: Vec<u8> = of('b').iter().flat_map(Case::trial).collect();
    let seen = seen_in_trial(&all);
    assert!(Half::ALL.iter().all(|&half| !seen.by_column(half).contains(&0)));
}

/// What was seen of a book is forgotten when another takes its place: purses that were drawn on, and
/// old to new in one book with new to old in the next, which is not there and back.
#[test]
fn another_book_is_watched_anew() {
    let total = |subject: &'static Subject, seen: &Seen| -> u64 {
        let columns = 0..subject.columns.len();
        let row = |row| columns.clone().map(move |column| seen.cell(subject, row, column));
        (0..subject.rows.count()).flat_map(row).sum()
    };
    let trials: Vec<Vec<u8>> = of('c').iter().map(Case::trial).collect();
    let apart: u64 = trials.iter().map(|calls| total(&PURSES, &seen_in_trial(calls))).sum();
    assert_eq!(total(&PURSES, &seen_in_trial(&trials.concat())), apart);
    let there = Entry::washup(2, 1, 1, 0, 100, 300, 100);
    let in_a_book = |entry: Entry| {
        let entries = [Entry::open(2), entry].map(|entry| calls::apply(&entry, 3));
        [calls::book(3), entries.concat()].concat()
    };
    let seen = seen_in_trial(&[there, washup::turned(&there)].map(in_a_book).concat());
    assert_eq!([Washup::Up, Washup::Down].map(|sight| seen.of(sight)), [1, 1]);
    assert_eq!((seen.of(Washup::ThereAndBack), total(&WASHUPS, &seen) > 2), (0, true));
}
