//! Energy, washups and amounts in the rotation, and how sides are filled to their bound.

use super::rotation::{scale_of, Rotation};
use crate::generate::aim::Scale;
use reckoning::rules::codec::Entry;

/// The sides of a period are filled to their bound, if at all, in the last entries before its
/// notice, since nothing goes in after that: one in so many of a month, and at least so many.
const FULL_PART: u64 = 50;
const FULL_LEAST: u64 = 40;
/// So many of 100 proposals for a period before its notice are washups; one of so many while it is
/// filled, where the proposal is not to fill a side.
pub(super) const WASHUPS: u64 = 10;
const WASHUP_WHILE_FULL: u64 = 2;

impl Rotation {
    /// Energy, a washup or an amount, where a period is before its notice.
    pub(super) fn energy_washup_or_amount(&mut self) -> Option<Entry> {
        let filled = self.period_to_fill().filter(|_| self.aim.random.chance(1, 2));
        if let Some(number) = filled {
            return Some(self.while_full(number));
        }
        let number = self.aim.any_before_notice()?;
        let scale = scale_of(number);
        let early = scale == Scale::Bound && !self.is_to_fill(number);
        self.aim.manner.scale = if early { Scale::Millions } else { scale };
        Some(self.aim.energy_washup_or_amount(number))
    }

    /// Whether the sides of a period before its notice are filled now.
    fn is_to_fill(&self, number: u32) -> bool {
        let month = self.plan.entries_of_a_month();
        let notice_due = self.opened_after[&number] + month * self.plan.notice_due() / 100;
        let left = notice_due.saturating_sub(self.reach.entries);
        scale_of(number) == Scale::Bound && left <= FULL_LEAST.max(month / FULL_PART)
    }

    fn period_to_fill(&self) -> Option<u32> {
        let numbers = self.aim.book.before_notice();
        numbers.into_iter().find(|&number| self.is_to_fill(number))
    }

    /// What fills a side, or comes to sides that are nearly full.
    fn while_full(&mut self, number: u32) -> Entry {
        let side = self.aim.random.below(2) as u8;
        let filling = self.aim.random.chance(1, 4).then(|| self.aim.filling(number, side));
        self.aim.manner.scale = Scale::Bound;
        filling.flatten().unwrap_or_else(|| match self.aim.random.chance(1, WASHUP_WHILE_FULL) {
            true => self.aim.washup(number),
            false => self.aim.energy_or_amount(number),
        })
    }
}
