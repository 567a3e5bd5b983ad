//! Tries wrong versions of each request on trials that are made for it; each must be told from the right
//! one. Those that break the equations of demand 3 must be told by it alone, from the lines of listings.

use crate::cases;
use crate::compare::same_payouts::{self, LISTS};
use crate::generate::feeds;
use crate::judge::{demand3, first_difference};
use crate::pairs;
use crate::selftest::mutants::{Wrong, BY_REQUEST};
use crate::selftest::Told;
use crate::trials;
use crate::workers;
use crate::Named;
use reckoning::programs::{listing, trial};
use reckoning::rules::limits::{Limits, DEMONSTRATION, MARKET};

/// How many feeds from seeds demand 3 is put over, as wrong versions list them.
const FEEDS: u64 = 20;
/// And how many whose n passes the limit, one in four just by one.
const FEEDS_OF_REFUSED_N: u64 = 8;

/// The first of some tellings, and how many there are; nothing if nothing tells.
fn by_how_many(told: Vec<String>, of: usize, what: &str) -> Option<String> {
    told.first().map(|first| format!("by {} of {of} {what}; {first}", told.len()))
}

/// The pairs of refusals of some sorts, as trials.
fn pairs_of(sorts: &'static [&'static str]) -> impl Iterator<Item = Named> {
    let pairs = pairs::pairs().into_iter().filter(|pair| sorts.contains(&pair.of));
    pairs.map(|pair| {
        let name = format!("trial pair {} with {}", pair.earlier, pair.later);
        (name, [pair.both, pair.alone].concat())
    })
}

/// The trials that wrong versions of a request are tried on. Those of every sort make books neither in
/// groups nor of limits.
fn trials_for(request: char) -> Vec<Named> {
    let mut all = trials::of(request);
    match request {
        'e' => all.extend(pairs_of(&["washup"])),
        'f' => all.extend(pairs_of(&["making of limits", "open at a limit"])),
        _ => (),
    }
    if !['a', 'f'].contains(&request) {
        all.extend(trials::of_every_sort());
    }
    all
}

/// Feeds from seeds, aimed by the wrong version, whose sides come to be equal so that its months settle.
fn aimed(wrong: &Wrong, limits: Limits, kind: &str, count: u64) -> Vec<Named> {
    let feed = |seed| feeds::feed_by((limits, wrong.make), seed, kind).expect("a kind that exists");
    (0..count).map(|seed| (format!("feed {kind} seed {seed}"), feed(seed))).collect()
}

/// The feeds that demand 3 is put over as a wrong version of a request lists them, and the limits of the
/// books that list them.
fn feeds_for(request: char, wrong: &Wrong) -> (Limits, Vec<Named>) {
    let (limits, kinds): (Limits, &[(&str, u64)]) = match request {
        'c' => (MARKET, &[("purses", FEEDS)]),
        'e' => (MARKET, &[("washups", FEEDS)]),
        'f' => (DEMONSTRATION, &[("full", FEEDS), ("refused-n", FEEDS_OF_REFUSED_N)]),
        'g' => (MARKET, &[("leftovers", FEEDS)]),
        request => panic!("no wrong version of {request} is put to demand 3"),
    };
    let by_hand = cases::as_feeds(cases::of(request).into_iter(), limits);
    let aimed = kinds.iter().flat_map(|&(kind, count)| aimed(wrong, limits, kind, count));
    (limits, by_hand.chain(aimed).collect())
}

/// Every wrong version that fits, with the letter of its request.
fn versions(fits: fn(&Wrong) -> bool) -> Vec<(char, &'static Wrong)> {
    let all = BY_REQUEST.iter().flat_map(|&(letter, all)| all.iter().map(move |it| (letter, it)));
    all.filter(|(_, wrong)| fits(wrong)).collect()
}

fn named((letter, wrong): (char, &Wrong)) -> String {
    format!("version of {letter}, {}", wrong.name)
}

/// Tries each wrong version on the trials that are made for its request.
pub fn try_by_trials(details: bool) -> bool {
    let mut told = Told::new("wrong versions", details);
    for (letter, versions) in BY_REQUEST {
        let trials = trials_for(letter);
        let right: Vec<Vec<u8>> = trials.iter().map(|(_, calls)| trial::expected(calls)).collect();
        let found = workers::for_each(versions, |wrong| {
            let judged = |((name, calls), right): (&Named, &Vec<u8>)| {
                let found = trial::lines(wrong.make, calls, &mut ());
                first_difference(right, &found).map(|what| format!("{name}: {what}"))
            };
            let told = trials.iter().zip(&right).filter_map(judged).collect();
            by_how_many(told, trials.len(), "trials")
        });
        for (wrong, what) in versions.iter().zip(found) {
            told.take(&named((letter, wrong)), what);
        }
    }
    told.end()
}

/// Puts demand 3 over the listings of each version that breaks it.
pub fn try_by_demand_3(details: bool) -> bool {
    let mut told = Told::new("wrong versions by demand 3 alone", details);
    let versions = versions(|wrong| wrong.by_demand_3);
    let found = workers::for_each(&versions, |&(letter, wrong)| {
        let (limits, feeds) = feeds_for(letter, wrong);
        let judged = |(name, feed): &Named| {
            let found = listing::lines((limits, wrong.make), feed, &mut ());
            demand3::check_within(limits, feed, &found).err().map(|what| format!("{name}: {what}"))
        };
        by_how_many(feeds.iter().filter_map(judged).collect(), feeds.len(), "listings")
    });
    for (version, what) in versions.into_iter().zip(found) {
        told.take(&named(version), what);
    }
    told.end()
}

/// Puts lists that a book accepts throughout to each version that pays others in larger books.
pub fn try_by_same_payouts(details: bool) -> bool {
    let mut told = Told::new("wrong versions by the same payouts alone", details);
    for version in versions(|wrong| wrong.by_same_payouts) {
        let make = version.1.make;
        let lines = |calls: &[u8]| trial::lines(make, calls, &mut ());
        // Drawn by the wrong version's book, which accepts them.
        let lists = (0..LISTS).map(|seed| same_payouts::list_by(make, seed));
        let found = lists.filter_map(|list| same_payouts::pays_others(lines, &list)).collect();
        told.take(&named(version), by_how_many(found, LISTS as usize, "lists"));
    }
    told.end()
}
