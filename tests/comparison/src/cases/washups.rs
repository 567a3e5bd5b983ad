//! Cases of washups (02, e) by hand: where an amount goes, how it is rounded, earlier periods that
//! stand and that do not, and every stage. 1 kWh at 20,000 is 23 cents; 100, 300, 500 and 700 kWh at
//! 100 are 11.5, 34.5, 57.5 and 80.5, which go to 12, 34, 58 and 80.

use crate::cases::Case;
use reckoning::rules::codec::Entry;
use reckoning::rules::month_a;
use reckoning::rules::refusals::*;

/// A washup of the period before.
fn washup(period: u32, participant: u8, side: u8, kwh: (u32, u32), price: u32) -> Entry {
    Entry::washup(period, period - 1, participant, side, kwh.0, kwh.1, price)
}

impl Case {
    /// Payer 0 pays so many cents, which is all that is payable by it, and participant 1 gets them.
    fn paid_to_1(self, period: u32, cents: u64) -> Case {
        self.stand([Entry::notice(period)])
            .refused(Entry::receipt(period, 0, cents + 1), RECEIPT_ABOVE)
            .holds(Entry::receipt(period, 0, cents), cents.into())
            .pays(Entry::settle(period), [0, cents, 0], 0)
    }

    /// What month A, period 7, comes to after its notice.
    fn month_a_from_notice(self) -> Case {
        self.refused(Entry::receipt(7, 0, 601), RECEIPT_ABOVE)
            .holds(Entry::receipt(7, 0, 300), 300)
            .refused(Entry::receipt(7, 2, 335), RECEIPT_ABOVE)
            .holds(Entry::receipt(7, 2, 334), 634)
            .pays(Entry::settle(7), [0, 567, 67], 0)
            .pays(Entry::receipt(7, 0, 100), [0, 78, 22], 0)
            .pays(Entry::receipt(7, 0, 200), [0, 155, 45], 0)
    }

    /// A month whose earlier periods stand, or are refused with 16, on both sides: 23 cents each that
    /// stands.
    fn with_earlier_periods(self, period: u32, right: [u32; 2], wrong: &[u32]) -> Case {
        let mut case = self.stand([Entry::open(period)]);
        for side in [0, 1] {
            let of = |earlier| Entry::washup(period, earlier, side, side, 0, 1, 20_000);
            let refused = |case: Case, &earlier| case.refused(of(earlier), EARLIER_PERIOD_OUTSIDE);
            case = wrong.iter().fold(case.stand(right.map(of)), refused);
        }
        case.paid_to_1(period, 46)
    }
}

/// All of month A but its tier 1 by washups: up on sides 0 and 1, and down on both. 3 and 2 kWh at
/// 173,913 are 599.99985 and 399.9999 cents, 8 at 76,087 are 700.0004, 3 at 57,971 are 199.99995.
/// It is month A's listing just where side 1 is tier 5, as stated and as the other side.
fn month_a_by_washups() -> Case {
    Case::new("month A by washups", 3)
        .stand([Entry::open(7), Entry::washup(7, 6, 0, 0, 0, 3, 173_913)])
        .stand([Entry::washup(7, 1, 2, 1, 2, 0, 173_913), Entry::amount(7, 1, 1, 1, 100)])
        .stand([Entry::washup(7, 0, 1, 0, 8, 0, 76_087), Entry::washup(7, 5, 2, 1, 0, 3, 57_971)])
        .stand([Entry::notice(7)])
        .month_a_from_notice()
}

/// 34 less 12 is 22, where 200 kWh are 23. 4 kWh are 0.46 and 5 are 0.575: 1 cent, where 1 kWh is
/// none; 300 and 301 are 34.5 and 34.615. 100 and 101 are 11.5 and 11.615, both 12.
fn rounded_each() -> Case {
    Case::new("each amount rounded", 3)
        .stand([Entry::open(40), washup(40, 0, 0, (100, 300), 100), washup(40, 0, 0, (4, 5), 100)])
        .stand([washup(40, 0, 0, (101, 100), 100), washup(40, 1, 1, (300, 301), 100)])
        .refused(Entry::notice(40), SIDES_UNEQUAL)
        .stand([washup(40, 1, 0, (300, 100), 100)])
        .paid_to_1(40, 23)
}

/// 22, 24 and 22 cents from half to half on side 0; 80 less 12 at once on side 1.
fn from_half_to_half() -> Case {
    Case::new("from half to half", 3)
        .stand([Entry::open(40), washup(40, 0, 0, (100, 300), 100)])
        .stand([washup(40, 0, 0, (300, 500), 100), washup(40, 0, 0, (500, 700), 100)])
        .stand([washup(40, 1, 0, (700, 100), 100)])
        .paid_to_1(40, 68)
}

/// 99,999,999 kWh at 9,990,000 are 1,148,849,988,511.5 cents, which go to 512; a kWh less are just
/// 1,148,849,977,023. The difference is 11,489, where that kWh alone, 11,488.5, would be 11,488.
fn of_the_largest() -> Case {
    let (one_less, most) = (99_999_998, 99_999_999);
    Case::new("the largest quantities", 3)
        .stand([Entry::open(40), washup(40, 0, 0, (one_less, most), 9_990_000)])
        .stand([Entry::amount(40, 1, 1, 5, 11_489), washup(40, 2, 1, (0, 100_000_000), 10_000_000)])
        .stand([washup(40, 2, 1, (100_000_000, 0), 10_000_000), Entry::notice(40)])
        .refused(Entry::receipt(40, 0, 11_490), RECEIPT_ABOVE)
        .holds(Entry::receipt(40, 0, 11_489), 11_489)
        // Participant 2 has the same on both sides: it pays what is retained of it, and gets it.
        .refused(Entry::receipt(40, 2, 11_490), RECEIPT_ABOVE)
        .holds(Entry::receipt(40, 2, 11_489), 22_978)
        .pays(Entry::settle(40), [0, 11_489, 11_489], 0)
}

/// Equal quantities, equal cents (0.115 and 0.23; 0.575 and 0.69; 11.5 and 11.615) and a price of 0:
/// both sides stay 0, so that the month is empty.
fn no_change() -> Case {
    let same = [
        ((0, 0), 10_000_000),
        ((100_000_000, 100_000_000), 10_000_000),
        ((7, 7), 100),
        ((1, 2), 100),
        ((6, 5), 100),
        ((100, 101), 100),
        ((0, 100_000_000), 0),
    ];
    let of = |side| same.map(|(kwh, price)| washup(40, 2, side, kwh, price));
    Case::new("no change", 3)
        .stand([Entry::open(40)])
        .stand(of(0))
        .stand(of(1))
        .stand([Entry::notice(40), Entry::settle(40)])
        .refused(washup(40, 2, 0, (7, 7), 100), PERIOD_NOT_IN_BOOK)
}

/// 22 cents on each side of participant 1, whichever side is stated and whichever way is first. In
/// period 2 payer 0 owes 100 to participant 2: A is 0, 22 × 100 / 122 and 100 × 100 / 122, rounded
/// up, 19 and 82. So 19 are payable by 1, which gets them back. In period 3 nobody owes more.
fn there_and_back() -> Case {
    Case::new("there and back", 3)
        .stand([Entry::open(2), washup(2, 1, 0, (100, 300), 100)])
        .refused(Entry::notice(2), SIDES_UNEQUAL)
        .stand([washup(2, 1, 0, (300, 100), 100), Entry::amount(2, 0, 0, 0, 100)])
        .stand([Entry::amount(2, 2, 1, 5, 100), Entry::notice(2)])
        .refused(Entry::receipt(2, 1, 20), RECEIPT_ABOVE)
        .holds(Entry::receipt(2, 1, 19), 19)
        .holds(Entry::receipt(2, 0, 100), 119)
        .pays(Entry::settle(2), [0, 19, 100], 0)
        .stand([Entry::open(3), washup(3, 1, 1, (300, 100), 100), washup(3, 1, 1, (100, 300), 100)])
        .stand([Entry::notice(3)])
        .refused(Entry::receipt(3, 1, 1), RECEIPT_ABOVE)
        .stand([Entry::settle(3)])
}

/// 1 to 24 below: 0 is for periods 1 to 24, and nothing wraps. Opened before were only 1 (for period
/// 2), 1 and 24 (for 25), 2 and 25 (for 26).
fn earlier_periods() -> Case {
    let (half, last) = (1 << 31, u32::MAX);
    Case::new("earlier periods", 3)
        .with_earlier_periods(1, [0, 0], &[1, 2, 25, last, last - 22])
        .with_earlier_periods(2, [0, 1], &[2, 3, 26, last, last - 21])
        .with_earlier_periods(24, [0, 23], &[24, 25, 48, last])
        .with_earlier_periods(25, [1, 24], &[0, 25, 26, 49, last])
        .with_earlier_periods(26, [2, 25], &[0, 1, 26, 27, 50, last])
        .with_earlier_periods(half, [half - 1, half - 24], &[half - 25, 0, last])
        .with_earlier_periods(last, [last - 1, last - 24], &[last, last - 25, 0, 23, half])
}

/// Period 7, month A, is before its notice while period 8 has washups of it, up and down on both
/// sides: 46 cents by 0 and to 1, all in period 8. Then 7 comes to what its own entries do.
fn of_a_period_before_its_notice() -> Case {
    let mut month_a = month_a::to_notice(7);
    let notice = month_a.pop();
    let of = |participant, side| {
        let up = washup(8, participant, side, (5, 6), 20_000);
        [up, washup(8, participant, 1 - side, (6, 5), 20_000)]
    };
    Case::new("of a period before its notice", 3)
        .stand(month_a)
        .stand([Entry::open(8)])
        .stand(of(0, 0))
        .stand(of(1, 1))
        .paid_to_1(8, 46)
        .stand(notice)
        .month_a_from_notice()
}

/// 23 cents at every stage, of a participant that there is not, and of 16 at the wrong stage. With
/// nothing received 23 are in arrears, and nothing is paid before they come.
fn at_every_stage() -> Case {
    let up = |participant, side| washup(7, participant, side, (5, 6), 20_000);
    let of_itself = Entry::washup(7, 7, 0, 0, 5, 6, 20_000);
    Case::new("washups at every stage", 3)
        .refused(up(0, 0), PERIOD_NOT_IN_BOOK)
        .stand([Entry::open(7)])
        .refused(up(3, 0), NO_PARTICIPANT)
        .refused(of_itself, EARLIER_PERIOD_OUTSIDE)
        .stand([up(0, 0), up(1, 1), Entry::notice(7)])
        .refused(up(0, 0), WRONG_STAGE)
        .refused(of_itself, WRONG_STAGE)
        .refused(up(63, 0), NO_PARTICIPANT)
        .stand([Entry::settle(7)])
        .refused(up(1, 1), WRONG_STAGE)
        .pays(Entry::receipt(7, 0, 23), [0, 23, 0], 0)
        .refused(up(1, 1), PERIOD_NOT_IN_BOOK)
        .refused(of_itself, PERIOD_NOT_IN_BOOK)
}

pub fn cases() -> Vec<Case> {
    vec![
        month_a_by_washups(),
        rounded_each(),
        from_half_to_half(),
        of_the_largest(),
        no_change(),
        there_and_back(),
        earlier_periods(),
        of_a_period_before_its_notice(),
        at_every_stage(),
    ]
}
