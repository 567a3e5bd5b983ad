//! Cases by hand of payers with arrears in an older period, who draw nothing (02, c). Late money
//! draws nothing either.

use crate::cases::Case;
use reckoning::rules::codec::Entry;
use reckoning::rules::month_a;
use reckoning::rules::refusals::*;

impl Case {
    /// Month A with 300 in arrears of payer 0.
    fn month_with_arrears(self, period: u32) -> Case {
        self.month_a_to_notice(period)
            .holds(Entry::receipt(period, 0, 300), 300)
            .holds(Entry::receipt(period, 2, 334), 634)
            .pays(Entry::settle(period), [0, 567, 67], 0)
    }
}

/// Payer 0's purse stays whole and 600 are in arrears, while payer 2 draws its 334: 400 are
/// available, 300 after tier 1: 233 1/3 of 700 and 66 2/3 of 200, which come to 233 and 67, and paid
/// are 333 and 134 − 133. Once both periods are paid, each by what its claims lack, the third draws
/// the 600.
fn barred_and_freed() -> Case {
    Case::new("a payer that older arrears bar, and then free", 3)
        .month_with_arrears(1)
        .holds(Entry::purse(0, 600), 600)
        .holds(Entry::purse(2, 334), 934)
        .month_a_to_notice(2)
        .pays(Entry::settle(2), [0, 333, 1], 600)
        .refused(Entry::receipt(2, 0, 601), EARLIER_ARREARS)
        .pays(Entry::receipt(1, 0, 300), [0, 233, 67], 600)
        .refused(Entry::receipt(2, 0, 601), RECEIPT_ABOVE)
        .month_a_to_notice(3)
        .holds(Entry::receipt(3, 2, 334), 934)
        .pays(Entry::receipt(2, 0, 600), [0, 467, 133], 934)
        .pays(Entry::settle(3), [0, 800, 134], 0)
}

/// 299 late cents are 232 67/300 of 233 and 66 233/300 of 67, which come to 232 and 67. The cent of
/// arrears that is left bars too, so that all 600 of the second period are in arrears; the last cent
/// meets the claim that lacks one.
fn barred_by_a_cent() -> Case {
    Case::new("a payer that a cent of older arrears bars", 3)
        .month_with_arrears(1)
        .pays(Entry::receipt(1, 0, 299), [0, 232, 67], 0)
        .holds(Entry::purse(0, 600), 600)
        .month_a_to_notice(2)
        .holds(Entry::receipt(2, 2, 334), 934)
        .pays(Entry::settle(2), [0, 333, 1], 600)
        .pays(Entry::receipt(1, 0, 1), [0, 1, 0], 600)
}

/// Period 2 settles first and has arrears of payer 0. It is no older period of period 1, which
/// draws 600 of 700.
fn later_arrears() -> Case {
    Case::new("arrears in a later period", 3)
        .month_a_to_notice(1)
        .month_with_arrears(2)
        .holds(Entry::purse(0, 700), 700)
        .holds(Entry::receipt(1, 2, 334), 1_034)
        .pays(Entry::settle(1), [0, 800, 134], 100)
        .pays(Entry::receipt(2, 0, 300), [0, 233, 67], 100)
}

/// What is unpaid in period 1, which is not settled, is no arrears: period 2 draws 600 of 700, and
/// then period 1 the rest. There 500 are in arrears: 500 are available, 400 after tier 1: 311 1/9 of
/// 700 and 88 8/9 of 200, which come to 311 and 89, and paid are 411 and 134 − 111.
fn older_period_not_settled() -> Case {
    Case::new("an older period that is not settled", 3)
        .month_a_to_notice(1)
        .month_a_to_notice(2)
        .holds(Entry::purse(0, 700), 700)
        .holds(Entry::receipt(1, 2, 334), 1_034)
        .holds(Entry::receipt(2, 2, 334), 1_368)
        .pays(Entry::settle(2), [0, 800, 134], 434)
        .pays(Entry::settle(1), [0, 411, 23], 0)
        .pays(Entry::receipt(1, 0, 500), [0, 389, 111], 0)
}

/// In period 1 payer 2 has 134 set off and 200 in arrears: V is 644 and 156, and the −44 of payer 2
/// takes 44 from participant 1. In period 2 that bars payer 2 alone; payer 0 draws its 600, and all
/// is as in period 1.
fn arrears_of_another_payer() -> Case {
    Case::new("older arrears of another payer", 3)
        .month_a_to_notice(1)
        .holds(Entry::receipt(1, 0, 600), 600)
        .pays(Entry::settle(1), [0, 600, 0], 0)
        .holds(Entry::purse(0, 600), 600)
        .holds(Entry::purse(2, 400), 1_000)
        .month_a_to_notice(2)
        .pays(Entry::settle(2), [0, 600, 0], 400)
        .pays(Entry::receipt(1, 2, 200), [0, 200, 0], 400)
        .pays(Entry::receipt(2, 2, 200), [0, 200, 0], 400)
}

/// Neither money for the purse of a payer in arrears nor a late receipt moves anything out of it.
fn late_money() -> Case {
    Case::new("late money beside a purse", 3)
        .month_with_arrears(7)
        .holds(Entry::purse(0, 500), 500)
        .refused(Entry::receipt(7, 0, 301), RECEIPT_ABOVE)
        .pays(Entry::receipt(7, 0, 100), [0, 78, 22], 500)
        .holds(Entry::purse(0, 1), 501)
        .refused(Entry::receipt(7, 0, 201), RECEIPT_ABOVE)
        .pays(Entry::receipt(7, 0, 200), [0, 155, 45], 501)
        .refused(Entry::receipt(7, 0, 1), PERIOD_NOT_IN_BOOK)
}

/// A refused settle entry draws nothing: before the notice, and once the period is settled.
fn refused_settle_entries() -> Case {
    let mut entries = month_a::to_notice(7);
    let notice = entries.pop();
    Case::new("settle entries that are refused", 3)
        .holds(Entry::purse(0, 300), 300)
        .stand(entries)
        .refused(Entry::settle(7), WRONG_STAGE)
        .stand(notice)
        .holds(Entry::receipt(7, 2, 334), 634)
        .pays(Entry::settle(7), [0, 567, 67], 0)
        .holds(Entry::purse(0, 300), 300)
        .refused(Entry::settle(7), WRONG_STAGE)
        .refused(Entry::settle(8), PERIOD_NOT_IN_BOOK)
}

pub fn cases() -> Vec<Case> {
    vec![
        barred_and_freed(),
        barred_by_a_cent(),
        later_arrears(),
        older_period_not_settled(),
        arrears_of_another_payer(),
        late_money(),
        refused_settle_entries(),
    ]
}
