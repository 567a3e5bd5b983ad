//! Proposes entries that are meant to be refused, for a book as it stands.

use crate::generate::aim::Aim;
use reckoning::rules::codec::{Entry, LAST_PARTICIPANT, MOST_CENTS};
use reckoning::rules::period::Stage;

impl Aim {
    /// An entry that the book should refuse; now and then it is accepted all the same.
    pub fn wrong_entry(&mut self) -> Entry {
        if self.random.chance(1, 12) {
            return self.wrong_purse();
        }
        if self.book.periods.is_empty() {
            return self.wrong_opening_or_period();
        }
        if self.manner.washups > 0 && self.random.chance(1, 6) {
            return self.wrong_washup();
        }
        match self.random.below(10) {
            0 | 1 => self.wrong_opening_or_period(),
            2 => self.wrong_stage(),
            3 => self.wrong_participant(),
            4 => self.total_at_its_bound(),
            5 => self.early_notice(),
            6 | 7 => self.barred_receipt(),
            _ => self.receipt_near_its_bound(),
        }
    }

    /// Openings for 6 and 7, and other kinds for 8.
    fn wrong_opening_or_period(&mut self) -> Entry {
        let highest = self.book.highest;
        if self.random.chance(1, 2) {
            let below = self.random.below(u64::from(highest) + 1) as u32;
            let next = highest.saturating_add(1);
            return Entry::open(self.random.pick(&[0, highest, below, next, next]));
        }
        let gone = self.random.below(u64::from(highest) + 1) as u32;
        let period = self.random.pick(&[0, gone, gone, highest.saturating_add(1), u32::MAX]);
        self.any_kind_on(period)
    }

    /// An entry of any kind but open on a period.
    pub fn any_kind_on(&mut self, period: u32) -> Entry {
        let participant = self.any_participant();
        let cents = self.any_cents(MOST_CENTS);
        match self.random.below(7) {
            0 => Entry::energy(period, participant, 1, 100, 100),
            1 => Entry::amount(period, participant, 0, 0, cents),
            2 => Entry::amount(period, participant, 1, 3, cents),
            3 => Entry::notice(period),
            4 => Entry::receipt(period, participant, cents),
            5 => self.some_washup(period, participant),
            _ => Entry::settle(period),
        }
    }

    /// A washup, up or down, whose earlier period stands or is the period itself.
    fn some_washup(&mut self, period: u32, participant: u8) -> Entry {
        let earlier = self.earlier_period(period);
        let earlier = self.random.pick(&[earlier, earlier, period]);
        let (old, new) = self.random.pick(&[(100, 300), (300, 100)]);
        Entry::washup(period, earlier, participant, self.random.below(2) as u8, old, new, 100)
    }

    /// A kind that the stage of a period does not take.
    fn wrong_stage(&mut self) -> Entry {
        let number = self.any_period();
        let participant = self.any_participant();
        let cents = self.any_cents(MOST_CENTS);
        let receipt = Entry::receipt(number, participant, cents);
        let energy = Entry::energy(number, participant, 0, 300, 100);
        let amount = Entry::amount(number, participant, 1, 5, cents);
        let washup = self.some_washup(number, participant);
        let (notice, settle) = (Entry::notice(number), Entry::settle(number));
        match self.book.periods[&number].stage {
            Stage::BeforeNotice => self.random.pick(&[receipt, settle]),
            Stage::Noticed(_) => self.random.pick(&[energy, amount, washup, notice]),
            Stage::Settled { .. } => self.random.pick(&[energy, amount, washup, notice, settle]),
        }
    }

    /// A participant from n to 63 (with n = 64 there is none, and the last one serves).
    fn no_participant(&mut self) -> u8 {
        let n = (self.book.n as u8).min(LAST_PARTICIPANT);
        let between = self.random.between(n.into(), LAST_PARTICIPANT.into()) as u8;
        self.random.pick(&[n, between, LAST_PARTICIPANT])
    }

    fn wrong_participant(&mut self) -> Entry {
        let number = self.any_period();
        let mut entry = self.any_kind_on(number);
        entry.participant = self.no_participant();
        entry
    }

    /// Money for a purse about its bound, or for that of a participant that there is not.
    fn wrong_purse(&mut self) -> Entry {
        let near = self.purse_near_its_bound().filter(|_| self.random.chance(3, 4));
        near.unwrap_or_else(|| {
            let cents = self.any_cents(MOST_CENTS);
            Entry::purse(self.no_participant(), cents)
        })
    }

    /// An entry that brings a side's total to its bound, a cent below or a cent past it.
    fn total_at_its_bound(&mut self) -> Entry {
        let number = self.any_period();
        let side = self.random.below(2) as u8;
        let participant = self.any_participant();
        let room = self.room_on(number, side);
        let cents = self.random.near(room);
        if cents <= 11_000 && self.random.chance(1, 2) {
            // The lowest price that comes to so many cents, or to the half below them, for 1 kWh.
            let price = (cents * 100_000).saturating_sub(50_000).div_ceil(115);
            return Entry::energy(number, participant, side, 1, price as u32);
        }
        Entry::amount(number, participant, side, 5 * side, cents.clamp(1, MOST_CENTS))
    }

    /// A notice, likely while the sides are unequal.
    fn early_notice(&mut self) -> Entry {
        let number = self.any_period();
        Entry::notice(number)
    }

    /// A receipt of just the most that can be received, a cent less or a cent more.
    fn receipt_near_its_bound(&mut self) -> Entry {
        let (number, payer) = (self.any_period(), self.any_participant());
        self.receipt_near(number, payer)
    }

    fn receipt_near(&mut self, number: u32, payer: u8) -> Entry {
        let most = self.book.periods[&number].most_receipt(payer.into()) as u64;
        let cents = self.random.near(most).clamp(1, MOST_CENTS);
        Entry::receipt(number, payer, cents)
    }

    /// A receipt of a payer that an earlier period's arrears bar, if there is one.
    fn barred_receipt(&mut self) -> Entry {
        let book = &self.book;
        let barred: Vec<(u32, u8)> = book
            .periods
            .keys()
            .flat_map(|&number| (0..book.n as u8).map(move |payer| (number, payer)))
            .filter(|&(number, payer)| book.barred(number, payer.into()))
            .collect();
        if barred.is_empty() {
            return self.receipt_near_its_bound();
        }
        let (number, payer) = self.random.pick(&barred);
        self.receipt_near(number, payer)
    }
}
