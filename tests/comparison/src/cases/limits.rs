//! Cases of limits (02, f) by hand, in a demonstration book: three periods at once, and n from 1 to 8.

use crate::cases::Case;
use reckoning::rules::codec::Entry;
use reckoning::rules::limits::DEMONSTRATION;
use reckoning::rules::refusals::*;

/// 7 for each number above the highest, and 6 before it for the others. Any of the three may leave;
/// the highest stays what it was, since a refused opening changes nothing.
fn a_fourth_period() -> Case {
    Case::new("a fourth period", 3)
        .stand([Entry::open(2), Entry::open(5), Entry::open(6)])
        .refused(Entry::open(7), PERIODS_AT_LIMIT)
        .refused(Entry::open(u32::MAX), PERIODS_AT_LIMIT)
        .refused(Entry::open(6), NOT_ABOVE_HIGHEST)
        .refused(Entry::open(0), NOT_ABOVE_HIGHEST)
        .stand([Entry::notice(5)])
        .refused(Entry::open(7), PERIODS_AT_LIMIT)
        .stand([Entry::settle(5)])
        .refused(Entry::open(5), NOT_ABOVE_HIGHEST)
        .stand([Entry::open(7)])
        .refused(Entry::open(8), PERIODS_AT_LIMIT)
}

/// Month A keeps its place until its arrears are paid.
fn arrears_keep_the_place() -> Case {
    Case::new("arrears keep the place", 3)
        .month_a_to_notice(7)
        .holds(Entry::receipt(7, 0, 300), 300)
        .holds(Entry::receipt(7, 2, 334), 634)
        .pays(Entry::settle(7), [0, 567, 67], 0)
        .stand([Entry::open(8), Entry::open(9)])
        .refused(Entry::open(10), PERIODS_AT_LIMIT)
        .pays(Entry::receipt(7, 0, 100), [0, 78, 22], 0)
        .refused(Entry::open(10), PERIODS_AT_LIMIT)
        .pays(Entry::receipt(7, 0, 200), [0, 155, 45], 0)
        .stand([Entry::open(10)])
        .refused(Entry::open(11), PERIODS_AT_LIMIT)
}

/// Thirteen periods, one after the other: only those in the book count. 100 are owing by 0 and to 1 in
/// each, and paid from the purse.
fn one_after_the_other() -> Case {
    let start = Case::new("one after the other", 3).holds(Entry::purse(0, 1_300), 1_300);
    (1..=13).fold(start, |case, period| {
        case.stand([Entry::open(period), Entry::amount(period, 0, 0, 0, 100)])
            .stand([Entry::amount(period, 1, 1, 5, 100), Entry::notice(period)])
            .pays(Entry::settle(period), [0, 100, 0], u128::from(1_300 - 100 * period))
    })
}

/// In a full book all but an opening goes on: purses, energy, washups of a period 24 below, and a
/// settlement that draws. 10 kWh at 20,000 are 230 cents, and 14 less 10 are 92. Payer 0 owes 230 and
/// participant 1 gets 230 in period 30; in 31 payer 2 owes 92 to 1.
fn a_full_book_goes_on() -> Case {
    Case::new("a full book goes on", 3)
        .stand([Entry::open(30), Entry::open(31), Entry::open(32)])
        .refused(Entry::open(33), PERIODS_AT_LIMIT)
        .holds(Entry::purse(0, 200), 200)
        .stand([Entry::energy(30, 0, 0, 10, 20_000), Entry::energy(30, 1, 1, 10, 20_000)])
        .stand([Entry::washup(31, 7, 2, 0, 10, 14, 20_000)])
        .refused(Entry::washup(31, 6, 2, 0, 10, 14, 20_000), EARLIER_PERIOD_OUTSIDE)
        .stand([Entry::washup(31, 30, 1, 0, 14, 10, 20_000), Entry::notice(30)])
        .pays(Entry::settle(30), [0, 200, 0], 0)
        .refused(Entry::open(33), PERIODS_AT_LIMIT)
        .stand([Entry::notice(31)])
        .holds(Entry::receipt(31, 2, 92), 92)
        .pays(Entry::settle(31), [0, 92, 0], 0)
        .stand([Entry::open(33)])
        .refused(Entry::open(34), PERIODS_AT_LIMIT)
        .pays(Entry::receipt(30, 0, 30), [0, 30, 0], 0)
        .stand([Entry::open(34)])
}

/// Eight participants, of which the last owes 50 to the first: participant 8 is 12, and there are as
/// many periods as with any n.
fn eight() -> Case {
    Case::new("eight participants", 8)
        .stand([Entry::open(1), Entry::amount(1, 7, 0, 0, 50)])
        .refused(Entry::amount(1, 8, 1, 5, 50), NO_PARTICIPANT)
        .stand([Entry::amount(1, 0, 1, 5, 50), Entry::open(2), Entry::open(3)])
        .refused(Entry::open(4), PERIODS_AT_LIMIT)
        .stand([Entry::notice(1)])
        .refused(Entry::receipt(1, 8, 50), NO_PARTICIPANT)
        .holds(Entry::receipt(1, 7, 50), 50)
        .pays(Entry::settle(1), [50], 0)
        .stand([Entry::open(4)])
}

/// One participant, which owes to itself what is owing to it.
fn one() -> Case {
    Case::new("one participant", 1)
        .stand([Entry::open(1), Entry::amount(1, 0, 0, 0, 50), Entry::amount(1, 0, 1, 5, 50)])
        .stand([Entry::open(2), Entry::open(3)])
        .refused(Entry::open(4), PERIODS_AT_LIMIT)
        .refused(Entry::purse(1, 5), NO_PARTICIPANT)
        .stand([Entry::notice(1), Entry::settle(1), Entry::open(4)])
}

pub fn cases() -> Vec<Case> {
    let cases = [
        a_fourth_period(),
        arrears_keep_the_place(),
        one_after_the_other(),
        a_full_book_goes_on(),
        eight(),
        one(),
    ];
    cases.map(|case| case.within(&[DEMONSTRATION])).into()
}
