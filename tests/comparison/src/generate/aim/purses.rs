//! Proposes money for purses (02, c), aimed at what the next settlements draw.

use crate::generate::aim::{Aim, Scale};
use reckoning::rules::codec::{Entry, MOST_CENTS};
use reckoning::rules::purse::MOST_PURSE;

impl Aim {
    /// A purse entry of a payer that has something unpaid in a noticed period, or of anyone.
    pub fn early_money(&mut self) -> Entry {
        let periods = self.book.periods.values().filter(|period| period.is_noticed());
        let unpaid: Vec<(u8, u128)> = periods
            .flat_map(|period| (0..self.book.n).map(|i| (i as u8, period.most_receipt(i))))
            .filter(|&(payer, unpaid)| unpaid > 0 && self.room(payer) > 0)
            .collect();
        let anyone = (self.any_participant(), 0);
        let some_payer = !unpaid.is_empty() && self.random.chance(2, 3);
        let (payer, unpaid) = if some_payer { self.random.pick(&unpaid) } else { anyone };
        self.early_money_of(payer, unpaid)
    }

    /// What a payer lacks beyond its purse to cover what is unpaid, a cent less or more, a part, or
    /// some more than it; or any cents.
    pub fn early_money_of(&mut self, payer: u8, unpaid: u128) -> Entry {
        let room = self.room(payer);
        let lacking = unpaid.saturating_sub(MOST_PURSE - u128::from(room)) as u64;
        let any = self.any_cents(room);
        let part = self.random.between(1, lacking.max(1));
        let cents = match self.random.below(10) {
            0 | 1 => lacking,
            2 => self.random.near(lacking),
            3..=5 => part,
            6 | 7 => lacking + any,
            _ => any,
        };
        Entry::purse(payer, cents.clamp(1, room.max(1)))
    }

    /// The cents that a participant's purse has room for.
    fn room(&self, participant: u8) -> u64 {
        (MOST_PURSE - self.book.purses[usize::from(participant)]) as u64
    }

    /// Money that brings the fullest purse to its bound, a cent below or a cent past it. Who has it
    /// is seldom in arrears after that, so it is one participant of three or more, unless amounts
    /// are as large.
    pub fn purse_near_its_bound(&mut self) -> Option<Entry> {
        let purses = self.book.purses.iter().copied().enumerate();
        let (fullest, _) = purses.max_by_key(|&(_, purse)| purse)?;
        let others_suffice = self.book.n > 2 || self.manner.scale == Scale::Bound;
        if self.manner.purses == 0 || !others_suffice {
            return None;
        }
        let room = self.room(fullest as u8);
        let cents = self.random.near(room).clamp(1, MOST_CENTS);
        Some(Entry::purse(fullest as u8, cents))
    }
}
