//! Wrong versions of the rules, by which the selftest shows that the tests can fail. Each misreads
//! a sentence of 02, or of 01 where 02 touches it; where its name does not say which, a comment quotes the words. In the lists of
//! versions `m` is the making.

pub mod groups;
pub mod halves;
pub mod leftovers;
pub mod limits;
pub mod purses;
pub mod washups;

use reckoning::rules::addition::Addition;
use reckoning::rules::book::{Book, Make};
use reckoning::rules::codec::Entry;
use reckoning::rules::limits::{MARKET, MOST_PARTICIPANTS};
use reckoning::rules::making::{Making, GROUPS};
use reckoning::rules::month::Sums;
use reckoning::rules::readings::Readings;
use reckoning::rules::refusals::ACCEPTED;
use reckoning::rules::retention::largest_gifts;

#[derive(Clone, Copy)]
pub struct Wrong {
    pub name: &'static str,
    pub make: Make,
    /// Whether demand 3, from the lines of listings alone, must tell it too.
    pub by_demand_3: bool,
    /// Whether lists with other payouts in a book of larger limits must tell it too (02, f).
    pub by_same_payouts: bool,
}

/// The wrong versions of each request, by its letter in 02.
pub const BY_REQUEST: [(char, &[Wrong]); 6] = [
    ('a', &groups::WRONG),
    ('b', &halves::WRONG),
    ('c', &purses::WRONG),
    ('e', &washups::WRONG),
    ('f', &limits::WRONG),
    ('g', &leftovers::WRONG),
];

/// A version that trials must tell.
pub(crate) const fn wrong(name: &'static str, make: Make) -> Wrong {
    Wrong { name, make, by_demand_3: false, by_same_payouts: false }
}

/// A version that trials, and demand 3 from listings, must each tell.
pub(crate) const fn unbalanced(name: &'static str, make: Make) -> Wrong {
    Wrong { by_demand_3: true, ..wrong(name, make) }
}

/// A version that trials, and lists with the same payouts, must each tell.
pub(crate) const fn unequal(name: &'static str, make: Make) -> Wrong {
    Wrong { by_same_payouts: true, ..wrong(name, make) }
}

/// The right book, but for some of its readings.
pub(crate) fn reading(making: &Making, change: impl Fn(&mut Readings)) -> (Book, u8) {
    let (mut book, answer) = Book::make(making);
    change(&mut book.readings);
    (book, answer)
}

/// The right book, but for what an entry adds, which 11 tests too.
pub(crate) fn adding(making: &Making, added: fn(&Entry) -> Option<Addition>) -> (Book, u8) {
    reading(making, |readings| (readings.added, readings.tested) = (added, added))
}

/// The right book, but for what 11 tests.
pub(crate) fn testing(making: &Making, tested: fn(&Entry) -> Option<Addition>) -> (Book, u8) {
    reading(making, |readings| readings.tested = tested)
}

/// The right book, but for how it reckons A.
pub(crate) fn retaining(making: &Making, retention: fn(&Book, &Sums) -> Vec<u128>) -> (Book, u8) {
    reading(making, |readings| readings.retention = retention)
}

/// A by a wrong s or a wrong g of each group.
pub(crate) fn by_s_and_g(sums: &Sums, s_and_g: impl Fn(usize) -> (u128, u128)) -> Vec<u128> {
    let all: Vec<(u128, u128)> = (0..GROUPS).map(s_and_g).collect();
    largest_gifts(sums, &all)
}

/// A where what a participant gets from a group is reckoned so.
pub(crate) fn by_gifts(sums: &Sums, gift: impl Fn(usize, usize) -> u128) -> Vec<u128> {
    let largest = |i| (0..GROUPS).map(|group| gift(i, group)).max().unwrap_or(0);
    (0..sums.n()).map(largest).collect()
}

/// The book of a making that was answered in a wrong way.
pub(crate) fn answered(making: &Making, refusal: Option<u8>) -> (Book, u8) {
    match refusal {
        None => (Book::with(making.clone()), ACCEPTED),
        Some(refusal) => (Book::alone(0), refusal),
    }
}

/// The right answer to a making, but for a refusal where something holds.
pub(crate) fn refused_too(making: &Making, holds: bool, refusal: u8) -> (Book, u8) {
    answered(making, making.refusal().or(holds.then_some(refusal)))
}

/// Whether a group number or a reserve is outside its values, whatever n and the limits are.
pub(crate) fn is_outside(making: &Making) -> bool {
    let n = making.n.clamp(1, MOST_PARTICIPANTS);
    Making { n, limits: MARKET, ..making.clone() }.refusal().is_some()
}

/// The making with the reserves of some groups alone.
pub(crate) fn with_reserves(making: &Making, of: impl Fn(usize) -> bool) -> Making {
    let reserve = |group: usize| if of(group) { making.reserves[group] } else { 0 };
    Making { reserves: std::array::from_fn(reserve), ..making.clone() }
}
