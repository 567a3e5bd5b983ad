//! The plan of a long feed: how many months it has, and at what age a period is noticed, settled and
//! paid off.

use reckoning::rules::limits::{Limits, MOST_PERIODS};

/// Ages of a period in hundredths of a month, where the period limit is twelve.
const NOTICE_DUE: u64 = 300;
/// The last arrears are paid right before the twelfth month after the opening.
const LEAVING_DUE: u64 = 1_190;
/// Where the limit is small a period is still before its notice for a month, so that there is one.
const A_MONTH: u64 = 100;

/// What a feed is made by.
#[derive(Clone, Copy, Debug)]
pub struct Plan {
    /// Those of the book.
    pub limits: Limits,
    pub n: u8,
    pub entries: u64,
    pub months: u64,
}

impl Plan {
    /// From one opening to the next.
    pub(super) fn entries_of_a_month(&self) -> u64 {
        (self.entries / self.months.max(1)).max(1)
    }

    /// What an age in a book of twelve periods comes to in one of the plan's period limit.
    fn age(&self, of_twelve: u64) -> u64 {
        of_twelve * self.limits.periods / MOST_PERIODS
    }

    pub(super) fn notice_due(&self) -> u64 {
        self.age(NOTICE_DUE).max(A_MONTH)
    }

    /// After the notice comes a third of the time before it.
    pub(super) fn settle_due(&self) -> u64 {
        self.notice_due() * 4 / 3
    }

    pub(super) fn leaving_due(&self) -> u64 {
        self.age(LEAVING_DUE)
    }
}
