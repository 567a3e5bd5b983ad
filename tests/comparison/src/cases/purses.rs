//! Cases of purses (02, c) by hand: how much a settlement draws, money that comes in at every
//! stage, and the bound of a purse. Payers have no arrears in older periods.

use crate::cases::Case;
use reckoning::rules::codec::{Entry, MOST_CENTS};
use reckoning::rules::month_a;
use reckoning::rules::refusals::*;

const BOUND: u128 = MOST_CENTS as u128;

/// Of payer 0's 600 cents 300 come before the period is opened. From the settle entry on it is
/// month A, where they come as a receipt: 567 and 67, then 78 and 22, then 155 and 45.
fn a_part() -> Case {
    Case::new("a purse that covers a part", 3)
        .holds(Entry::purse(0, 300), 300)
        .month_a_to_notice(7)
        .holds(Entry::receipt(7, 2, 334), 634)
        .pays(Entry::settle(7), [0, 567, 67], 0)
        .pays(Entry::receipt(7, 0, 100), [0, 78, 22], 0)
        .pays(Entry::receipt(7, 0, 200), [0, 155, 45], 0)
}

/// Both purses cover what is unpaid, so that every claim is paid and the period leaves.
fn all() -> Case {
    Case::new("purses that cover all", 3)
        .holds(Entry::purse(0, 600), 600)
        .holds(Entry::purse(2, 334), 934)
        .month_a_to_notice(7)
        .pays(Entry::settle(7), [0, 800, 134], 0)
        .refused(Entry::receipt(7, 0, 1), PERIOD_NOT_IN_BOOK)
}

/// 600 of 1,000 are drawn, and the second period has the 400 that stay. With 200 in arrears 800 are
/// available, 700 after tier 1: 544 4/9 of 700 and 155 5/9 of 200, whose remainder is larger: 156.
/// Paid are 644 and 134 − 44.
fn more_and_a_second_period() -> Case {
    Case::new("a purse with more than is unpaid, and a second period", 3)
        .holds(Entry::purse(0, 1_000), 1_000)
        .month_a_to_notice(7)
        .holds(Entry::receipt(7, 2, 334), 1_334)
        .pays(Entry::settle(7), [0, 800, 134], 400)
        .month_a_to_notice(8)
        .holds(Entry::receipt(8, 2, 334), 734)
        .pays(Entry::settle(8), [0, 644, 90], 0)
        .refused(Entry::receipt(8, 0, 201), RECEIPT_ABOVE)
        .pays(Entry::receipt(8, 0, 200), [0, 156, 44], 0)
}

/// The period that settles first takes all 600. In the other 600 are in arrears: 400 are available,
/// 300 after tier 1: 233 1/3 of 700 and 66 2/3 of 200, which come to 233 and 67. Paid are 333 and
/// 134 − 133.
fn two_periods_and_one_purse() -> Case {
    Case::new("two periods and one purse", 3)
        .month_a_to_notice(1)
        .month_a_to_notice(2)
        .holds(Entry::receipt(1, 2, 334), 334)
        .holds(Entry::receipt(2, 2, 334), 668)
        .holds(Entry::purse(0, 600), 1_268)
        .pays(Entry::settle(2), [0, 800, 134], 334)
        .pays(Entry::settle(1), [0, 333, 1], 0)
        .refused(Entry::receipt(1, 0, 601), RECEIPT_ABOVE)
        .pays(Entry::receipt(1, 0, 600), [0, 467, 133], 0)
}

/// A notice does not count a purse: of the 600 all can be received. Then nothing is unpaid.
fn nothing_unpaid() -> Case {
    Case::new("a purse where nothing is unpaid", 3)
        .holds(Entry::purse(0, 300), 300)
        .month_a_to_notice(7)
        .refused(Entry::receipt(7, 0, 601), RECEIPT_ABOVE)
        .holds(Entry::receipt(7, 0, 600), 900)
        .refused(Entry::receipt(7, 0, 1), RECEIPT_ABOVE)
        .holds(Entry::receipt(7, 2, 334), 1_234)
        .pays(Entry::settle(7), [0, 800, 134], 300)
}

/// 200 are received and 300 drawn; 100 are in arrears. 900 are available, 800 after tier 1: 622 2/9
/// of 700 and 177 7/9 of 200, which come to 622 and 178. Paid are 722 and 134 − 22.
fn beside_a_receipt() -> Case {
    Case::new("a purse beside a receipt", 3)
        .month_a_to_notice(7)
        .holds(Entry::receipt(7, 0, 200), 200)
        .holds(Entry::purse(0, 300), 500)
        .holds(Entry::receipt(7, 2, 334), 834)
        .pays(Entry::settle(7), [0, 722, 112], 0)
        .refused(Entry::receipt(7, 0, 101), RECEIPT_ABOVE)
        .refused(Entry::receipt(7, 2, 1), RECEIPT_ABOVE)
        .pays(Entry::receipt(7, 0, 100), [0, 78, 22], 0)
}

/// Of payer 2's 334 unpaid cents 134 would be set off and 200 be in arrears. All 250 are drawn, not
/// 200: 84 are set off, its claim is 134 − 84, and nothing is in arrears.
fn past_the_arrears() -> Case {
    Case::new("a purse past the arrears", 3)
        .holds(Entry::purse(2, 250), 250)
        .month_a_to_notice(7)
        .holds(Entry::receipt(7, 0, 600), 850)
        .pays(Entry::settle(7), [0, 800, 50], 0)
}

/// With 100 drawn 134 are set off and 100 in arrears. V is 722 and 178; payer 2's claim of 0 is
/// scaled to −22, which participant 1 loses in one round: all 700 received are paid.
fn a_part_before_set_off() -> Case {
    Case::new("a part before set-off", 3)
        .month_a_to_notice(7)
        .holds(Entry::receipt(7, 0, 600), 600)
        .holds(Entry::purse(2, 100), 700)
        .pays(Entry::settle(7), [0, 700, 0], 0)
        .refused(Entry::receipt(7, 2, 101), RECEIPT_ABOVE)
        .pays(Entry::receipt(7, 2, 100), [0, 100, 0], 0)
}

/// Retention, and with it the 334 of payer 2, is that of month A whatever is in the purses.
fn retention_without_the_purse() -> Case {
    Case::new("retention without the purse", 3)
        .holds(Entry::purse(0, 600), 600)
        .holds(Entry::purse(2, 400), 1_000)
        .month_a_to_notice(7)
        .refused(Entry::receipt(7, 2, 335), RECEIPT_ABOVE)
        .holds(Entry::receipt(7, 2, 334), 1_334)
        .pays(Entry::settle(7), [0, 800, 134], 400)
}

/// Participant 1 only receives, so that nothing of it is ever unpaid. The second month is empty.
fn of_a_receiver() -> Case {
    Case::new("a purse of a receiver", 3)
        .holds(Entry::purse(1, 500), 500)
        .month_a_to_notice(7)
        .holds(Entry::receipt(7, 0, 600), 1_100)
        .holds(Entry::receipt(7, 2, 334), 1_434)
        .pays(Entry::settle(7), [0, 800, 134], 500)
        .stand([Entry::open(8), Entry::notice(8), Entry::settle(8)])
        .holds(Entry::purse(1, 1), 501)
}

/// 100 cents each before the opening, the notice and the settle entry are the 300 of month A.
/// What comes after that, with arrears and without a period, stays.
fn at_every_stage() -> Case {
    let (opening, rest) = (Entry::open(7), month_a::to_notice(7).into_iter().skip(1));
    Case::new("money at every stage", 3)
        .holds(Entry::purse(0, 100), 100)
        .stand([opening])
        .holds(Entry::purse(0, 100), 200)
        .stand(rest)
        .holds(Entry::purse(0, 100), 300)
        .holds(Entry::receipt(7, 2, 334), 634)
        .pays(Entry::settle(7), [0, 567, 67], 0)
        .holds(Entry::purse(0, 50), 50)
        .pays(Entry::receipt(7, 0, 300), [0, 233, 67], 50)
        .holds(Entry::purse(0, 50), 100)
}

/// Each purse has its own bound, and a participant that the book does not have has no purse. What
/// is drawn makes room again.
fn at_the_bound() -> Case {
    let both = 2 * BOUND;
    Case::new("purses at their bound", 3)
        .holds(Entry::purse(2, MOST_CENTS), BOUND)
        .refused(Entry::purse(2, 1), PURSE_PASSES_BOUND)
        .refused(Entry::purse(2, MOST_CENTS), PURSE_PASSES_BOUND)
        .holds(Entry::purse(0, MOST_CENTS - 1), both - 1)
        .refused(Entry::purse(0, 2), PURSE_PASSES_BOUND)
        .holds(Entry::purse(0, 1), both)
        .refused(Entry::purse(3, 1), NO_PARTICIPANT)
        .refused(Entry::purse(3, MOST_CENTS), NO_PARTICIPANT)
        .refused(Entry::purse(63, MOST_CENTS), NO_PARTICIPANT)
        .month_a_to_notice(1)
        .refused(Entry::purse(0, 1), PURSE_PASSES_BOUND)
        .pays(Entry::settle(1), [0, 800, 134], both - 934)
        .refused(Entry::purse(2, 335), PURSE_PASSES_BOUND)
        .holds(Entry::purse(2, 334), both - 600)
        .refused(Entry::purse(0, 601), PURSE_PASSES_BOUND)
        .holds(Entry::purse(0, 600), both)
        .refused(Entry::purse(0, 1), PURSE_PASSES_BOUND)
}

pub fn cases() -> Vec<Case> {
    vec![
        a_part(),
        all(),
        more_and_a_second_period(),
        two_periods_and_one_purse(),
        nothing_unpaid(),
        beside_a_receipt(),
        past_the_arrears(),
        a_part_before_set_off(),
        retention_without_the_purse(),
        of_a_receiver(),
        at_every_stage(),
        at_the_bound(),
    ]
}
