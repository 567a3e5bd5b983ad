//! Group numbers and reserves at each limit and just outside of it (02, a), and receipts up to
//! what is payable in groups.

use crate::refused::{of_month, Case, BUT_LATE, LAST, NONE, SETTLEMENT};
use binding::arguments::{row, Arguments, Rest, PLACES};
use comparison::coverage::group_kinds::{Reserves, Shape};
use comparison::generate::groupings;
use comparison::generate::months::{self, Month};
use comparison::generate::random::Random;
use reckoning::rules::making::{Making, MOST_RESERVE};
use reckoning::rules::month;
use std::cmp::Ordering;

/// The same with one group number, and nothing received: other groups make other amounts payable.
fn with_group(right: &Arguments, place: usize, group: u64) -> Arguments {
    right.but(|with| {
        with.received.fill(0);
        with.groups[place] = group;
    })
}

/// Group numbers below n and from n on, where n is 64 and where it is 63.
pub fn groups(right: &Arguments, of_63: &Arguments) -> Vec<Case> {
    vec![
        ("group 63, first", with_group(right, 0, 63), NONE),
        ("group 63, last", with_group(right, LAST, 63), NONE),
        ("group 64, first", with_group(right, 0, 64), BUT_LATE),
        ("group 64, last", with_group(right, LAST, 64), BUT_LATE),
        ("group 256", with_group(right, 0, 256), BUT_LATE),
        ("group 2^32", with_group(right, LAST, 1 << 32), BUT_LATE),
        ("group 2^64 - 1", with_group(right, 0, u64::MAX), BUT_LATE),
        ("group 63 at place n", with_group(of_63, LAST, 63), NONE),
        ("group 64 at place n", with_group(of_63, LAST, 64), NONE),
        ("group 2^64 - 1 at place n", with_group(of_63, LAST, u64::MAX), NONE),
        ("group 63 at place n - 1", with_group(of_63, LAST - 1, 63), NONE),
        ("group 64 at place n - 1", with_group(of_63, LAST - 1, 64), BUT_LATE),
        ("groups of 63 cells", right.but(|with| with.groups.truncate(63)), BUT_LATE),
        ("groups of 63 cells, n of 63", of_63.but(|with| with.groups.truncate(63)), BUT_LATE),
        ("groups of no cells", right.but(|with| with.groups.clear()), BUT_LATE),
        ("groups of 65 cells", right.but(|with| with.groups.push(u64::MAX)), NONE),
    ]
}

/// The same with nothing received, all in group 1, and one reserve.
fn with_reserve(right: &Arguments, group: usize, cents: u64) -> Arguments {
    right.but(|with| {
        with.received.fill(0);
        with.groups.fill(1);
        with.reserves[group] = cents;
    })
}

pub fn reserves(right: &Arguments) -> Vec<Case> {
    let above = MOST_RESERVE + 1;
    let all = right.but(|with| {
        with.received.fill(0);
        with.reserves.fill(MOST_RESERVE);
    });
    vec![
        ("a reserve at the bound, first", with_reserve(right, 0, MOST_RESERVE), NONE),
        ("a reserve at the bound, with members", with_reserve(right, 1, MOST_RESERVE), NONE),
        ("a reserve at the bound, last", with_reserve(right, LAST, MOST_RESERVE), NONE),
        ("all reserves at the bound", all.clone(), NONE),
        ("a reserve above the bound, first", with_reserve(right, 0, above), BUT_LATE),
        ("a reserve above the bound, with members", with_reserve(right, 1, above), BUT_LATE),
        ("a reserve above the bound, last", with_reserve(right, LAST, above), BUT_LATE),
        ("all but one reserve at the bound", all.but(|with| with.reserves[7] += 1), BUT_LATE),
        ("a reserve of 2^64 - 1, first", with_reserve(right, 0, u64::MAX), BUT_LATE),
        ("a reserve of 2^64 - 1, last", with_reserve(right, LAST, u64::MAX), BUT_LATE),
        ("reserves of 63 cells", right.but(|with| with.reserves.truncate(63)), BUT_LATE),
        ("reserves of no cells", right.but(|with| with.reserves.clear()), BUT_LATE),
        ("reserves of 65 cells", right.but(|with| with.reserves.push(u64::MAX)), NONE),
    ]
}

/// The first participant of whom more, or less, is payable than by groups of one and no reserves.
fn payer(month: &Month, order: Ordering) -> Option<usize> {
    let alone = month::notice(&month.sums, &Making::alone(month.n as u64)).payable;
    (0..month.n).find(|&i| month.notice.payable[i].cmp(&alone[i]) == order)
}

fn month_in_pairs(seed: u64) -> Month {
    let (mut random, n) = (Random::new(seed), PLACES as u64);
    months::month_in(seed, groupings::making(&mut random, n, Shape::Pairs, Reserves::Small))
}

/// All that is payable in a month in pairs is received, and then a cent more of a participant of
/// whom more, or less, is payable than by groups of one.
fn receipts_of(order: Ordering) -> [Arguments; 2] {
    let fits = |month: &Month| !month.late.is_empty() && payer(month, order).is_some();
    let month = (0..).map(month_in_pairs).find(fits).expect("there are many");
    let payer = payer(&month, order).expect("the month fits");
    let payable = row(&month.notice.payable, Rest::Zero);
    let all = of_month(&month).but(|with| with.received.clone_from(&payable));
    let above = all.but(|with| with.received[payer] += 1);
    [all, above]
}

/// Receipts up to what is payable in groups.
pub fn receipts() -> Vec<Case> {
    let [more, above_more] = receipts_of(Ordering::Greater);
    let [less, above_less] = receipts_of(Ordering::Less);
    vec![
        ("all received, more payable in groups", more, NONE),
        ("a cent above, more payable in groups", above_more, SETTLEMENT),
        ("all received, less payable in groups", less, NONE),
        ("a cent above, less payable in groups", above_less, SETTLEMENT),
    ]
}
