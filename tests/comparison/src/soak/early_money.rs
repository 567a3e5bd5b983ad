//! Money for purses (02, c) in the rotation.

use super::rotation::{scale_of, Rotation};
use crate::generate::aim::Scale;
use reckoning::rules::codec::Entry;

/// In the last quarter of the feed one purse entry of so many fills a purse to about its bound.
const FILLING: u64 = 16;

impl Rotation {
    /// Money for a purse, aimed at months of few or hundreds of cents, or anyone's: what is left of
    /// more would pay the later months too, and nobody would fail.
    pub(super) fn early_money(&mut self) -> Entry {
        let filling = self.is_filling().then(|| self.aim.purse_near_its_bound()).flatten();
        filling.unwrap_or_else(|| {
            self.aim.manner.scale = Scale::Few;
            let (payer, unpaid) = self.someone_with_little_unpaid();
            self.aim.early_money_of(payer, unpaid)
        })
    }

    /// A payer of such a month and what is unpaid of it, or anyone.
    fn someone_with_little_unpaid(&mut self) -> (u8, u128) {
        let book = &self.aim.book;
        let little = |&number: &u32| matches!(scale_of(number), Scale::Few | Scale::Hundreds);
        let noticed = |number: &u32| book.periods[number].is_noticed();
        let numbers = book.periods.keys().filter(|number| little(number) && noticed(number));
        let unpaid: Vec<(u8, u128)> = numbers
            .flat_map(|number| book.payers(*number).into_iter().enumerate())
            .map(|(payer, found)| (payer as u8, found.unpaid()))
            .filter(|&(_, unpaid)| unpaid > 0)
            .collect();
        match unpaid.is_empty() || self.aim.random.chance(1, 3) {
            true => (self.aim.any_participant(), 0),
            false => self.aim.random.pick(&unpaid),
        }
    }

    /// Whether a purse is filled. Its owner then has no arrears any more, so this comes late in the feed.
    fn is_filling(&mut self) -> bool {
        4 * self.reach.entries > 3 * self.plan.entries && self.aim.random.chance(1, FILLING)
    }
}
