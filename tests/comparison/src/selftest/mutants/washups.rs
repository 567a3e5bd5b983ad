//! Wrong versions of 02, e: what a washup adds and where, its earlier period, and what 11 tests.

use crate::selftest::mutants::halves::{energy_by, half_up};
use crate::selftest::mutants::{adding, reading, testing, unbalanced, wrong, Wrong};
use reckoning::rules::addition::{added, Addition};
use reckoning::rules::book::Book;
use reckoning::rules::codec::{Entry, WASHUP};
use reckoning::rules::making::Making;
use reckoning::rules::month::energy_cents;
use reckoning::rules::washup::{self, below, difference, earlier_stands};

/// The right book, but for the earlier periods that stand.
fn standing(making: &Making, stands: fn(&Book, &Entry) -> bool) -> (Book, u8) {
    reading(making, |readings| readings.earlier_stands = stands)
}

/// What an entry adds, where washups are reckoned so.
fn by(entry: &Entry, of_washup: impl Fn(&Entry) -> Option<Addition>) -> Option<Addition> {
    match entry.kind {
        WASHUP => of_washup(entry),
        _ => added(entry),
    }
}

/// "Each rounded": the energy amount of the difference of the quantities.
fn rounded_once(entry: &Entry) -> Option<Addition> {
    let of = |quantity| energy_cents(quantity, entry.price);
    let (old, new) = (entry.old_quantity, entry.quantity);
    difference(entry.side, (of(old.saturating_sub(new)), of(new.saturating_sub(old))))
}

/// "By the rule in force": as before 02, b.
fn with_a_half_up(entry: &Entry) -> Option<Addition> {
    let of = |quantity| energy_by(half_up, quantity, entry.price);
    difference(entry.side, (of(entry.old_quantity), of(entry.quantity)))
}

fn on_the_stated_side(entry: &Entry) -> Option<Addition> {
    washup::added(entry).map(|to| Addition { side: entry.side, ..to })
}

/// "Side 1 means tier 5": where it is stated.
fn tier_1_on_the_other_side(entry: &Entry) -> Option<Addition> {
    let tier = |to: Addition| if to.side == entry.side { to.tier } else { 1 };
    washup::added(entry).map(|to| Addition { tier: tier(to), ..to })
}

fn below_of(entry: &Entry) -> i64 {
    below(entry.period, entry.earlier_period)
}

/// A small period less a large earlier one comes to 1 to 24 in 32 bits.
fn by_wrapping(_: &Book, entry: &Entry) -> bool {
    (1..=24).contains(&entry.period.wrapping_sub(entry.earlier_period))
}

fn only_in_the_book(book: &Book, entry: &Entry) -> bool {
    earlier_stands(entry) && book.periods.contains_key(&entry.earlier_period)
}

/// "Before 11": 16 is not given where 11 holds too.
fn unless_11(book: &Book, entry: &Entry) -> bool {
    let period = &book.periods[&entry.period];
    let passes = |to: Addition| period.passes_bound(to.side, to.cents);
    earlier_stands(entry) || washup::added(entry).is_some_and(passes)
}

pub const WRONG: [Wrong; 10] = [
    unbalanced("the difference of the quantities rounded once", |m| {
        adding(m, |entry| by(entry, rounded_once))
    }),
    unbalanced("both amounts with a half up", |m| adding(m, |entry| by(entry, with_a_half_up))),
    unbalanced("a negative amount left on its side", |m| {
        adding(m, |entry| by(entry, on_the_stated_side))
    }),
    unbalanced("tier 1 where side 1 is the other", |m| {
        adding(m, |entry| by(entry, tier_1_on_the_other_side))
    }),
    wrong("25 below accepted", |m| standing(m, |_, entry| (1..=25).contains(&below_of(entry)))),
    wrong("0 below accepted", |m| standing(m, |_, entry| (0..=24).contains(&below_of(entry)))),
    wrong("above accepted by wrapping", |m| standing(m, by_wrapping)),
    wrong("an earlier period not in the book refused", |m| standing(m, only_in_the_book)),
    wrong("16 after 11", |m| standing(m, unless_11)),
    wrong("11 on the stated side", |m| testing(m, |entry| by(entry, on_the_stated_side))),
];
