//! Wrong versions of 02, g: who gets the leftover cents of a tier, and what still rounds up.

use crate::selftest::mutants::{by_gifts, reading, retaining, unbalanced, wrong, Wrong};
use reckoning::rules::book::Book;
use reckoning::rules::making::Making;
use reckoning::rules::month::{self, Sums, TIERS};
use reckoning::rules::retention::{g_of, s_of};
use reckoning::rules::sharing::{add, met, Shared, Shares};
use std::cmp::Reverse;

/// What each participant is to get in each tier.
type Wanted = [[u128; TIERS]];

/// The right book, but for how tiers are shared, in settlement and with late money.
fn sharing(making: &Making, shares: Shares) -> (Book, u8) {
    reading(making, |readings| (readings.revised, readings.late) = (shares, shares))
}

/// Tiers met in order, where the one that is not met is shared so.
fn by(wanted: &Wanted, money: u128, shares: impl Fn(&Shared) -> Vec<u128>) -> Vec<u128> {
    let (mut all, shared) = met(wanted, money);
    if let Some(shared) = shared {
        add(&mut all, &shares(&shared));
    }
    all
}

/// The leftover cents go one each to the first by a key, of those that have a remainder.
fn by_key<K: Ord>(
    wanted: &Wanted,
    money: u128,
    key: impl Fn(&Shared, u128, usize) -> K,
) -> Vec<u128> {
    by(wanted, money, |shared| {
        let remainders = shared.remainders();
        let mut first: Vec<usize> = (0..remainders.len()).filter(|&i| remainders[i] > 0).collect();
        first.sort_by_key(|&i| key(shared, remainders[i], i));
        shared.with_cents_to(&first)
    })
}

fn equals_to_the_higher_number(wanted: &Wanted, money: u128) -> Vec<u128> {
    by_key(wanted, money, |_, remainder, i| (Reverse(remainder), Reverse(i)))
}

fn equals_to_who_wants_more(wanted: &Wanted, money: u128) -> Vec<u128> {
    by_key(wanted, money, |shared, remainder, i| (Reverse((remainder, shared.wanted[i])), i))
}

fn lowest_numbers(wanted: &Wanted, money: u128) -> Vec<u128> {
    by_key(wanted, money, |_, _, i| i)
}

/// What stands behind the point of a share of f64, in millionths.
fn remainders_of_f64(wanted: &Wanted, money: u128) -> Vec<u128> {
    by_key(wanted, money, |shared, _, i| {
        let share = shared.wanted[i] as f64 * shared.money as f64 / shared.total() as f64;
        (Reverse((share.fract() * 1_000_000.0) as u64), i)
    })
}

/// "One each": all to the first, as far as it wants so much.
fn all_to_the_largest(wanted: &Wanted, money: u128) -> Vec<u128> {
    by(wanted, money, |shared| {
        let (mut shares, first) = (shared.rounded_down(), shared.by_remainder()[0]);
        shares[first] = shared.wanted[first].min(shares[first] + shared.leftover() as u128);
        shares
    })
}

/// As before 02, g.
fn all_held(wanted: &Wanted, money: u128) -> Vec<u128> {
    by(wanted, money, Shared::rounded_down)
}

/// The leftover cents are for the tiers after the one that is shared, which 01 calls a trap.
fn to_the_next_tier(wanted: &Wanted, money: u128) -> Vec<u128> {
    by(wanted, money, |shared| {
        let later = |tiers: &[u128; TIERS]| {
            std::array::from_fn(|tier| if tier > shared.tier { tiers[tier] } else { 0 })
        };
        let later: Vec<[u128; TIERS]> = wanted.iter().map(later).collect();
        let mut shares = shared.rounded_down();
        add(&mut shares, &to_the_next_tier(&later, shared.leftover() as u128));
        shares
    })
}

/// "Wherever a tier is shared and rounded down": retention is no tier, and rounds up.
fn retention_rounded_down(book: &Book, sums: &Sums) -> Vec<u128> {
    by_gifts(sums, |i, group| {
        let (s, g) = (s_of(sums, &book.making, group), g_of(sums, &book.making, group));
        (sums.tier_5(i) * s.min(g)).checked_div(g).unwrap_or(0)
    })
}

/// "Held money is now at most n − 1 cents after a settlement": it is 0, as what the rounds took
/// above D goes back, one cent each to the lowest numbers that lost some.
fn rounds_give_back(deficit: u128, balances: Vec<u128>, revised: &[u128]) -> (Vec<u128>, u64) {
    let (mut left, count) = month::rounds(deficit, balances.clone(), revised);
    let lost = balances.iter().sum::<u128>() - left.iter().sum::<u128>();
    let losers = left.iter_mut().zip(balances).filter(|(left, before)| **left < *before);
    losers.take(lost.saturating_sub(deficit) as usize).for_each(|(left, _)| *left += 1);
    (left, count)
}

pub const WRONG: [Wrong; 10] = [
    wrong("equal remainders to the higher number", |m| sharing(m, equals_to_the_higher_number)),
    wrong("equal remainders to who wants more", |m| sharing(m, equals_to_who_wants_more)),
    wrong("the lowest numbers with a remainder", |m| sharing(m, lowest_numbers)),
    wrong("remainders of f64", |m| sharing(m, remainders_of_f64)),
    unbalanced("all to the largest remainder", |m| sharing(m, all_to_the_largest)),
    unbalanced("leftover cents held", |m| sharing(m, all_held)),
    unbalanced("leftover cents to the next tier", |m| sharing(m, to_the_next_tier)),
    unbalanced("leftover cents of late money held", |m| {
        reading(m, |readings| readings.late = all_held)
    }),
    unbalanced("retention rounded down", |m| retaining(m, retention_rounded_down)),
    wrong("what the rounds took above D given back", |m| {
        reading(m, |readings| readings.rounds = rounds_give_back)
    }),
];
