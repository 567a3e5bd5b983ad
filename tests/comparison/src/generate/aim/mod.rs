//! Proposes the next entry for a book, aiming by a copy of it: mostly entries
//! that fit the book as it stands, so that many months come to settlement.

pub mod purses;
pub mod refused;
pub mod washups;

use crate::generate::energies::{self, Energy};
use crate::generate::random::Random;
use reckoning::rules::book::{Book, MOST_TOTAL};
use reckoning::rules::codec::Entry;
use reckoning::rules::making::Making;
use reckoning::rules::period::{Period, Stage};
use std::collections::BTreeSet;

/// How large the amounts are.
#[derive(Clone, Copy, Debug, PartialEq, Eq)]
pub enum Scale {
    /// 1 to 12 cents, so that rounding matters.
    Few,
    /// 1 to 300 cents.
    Hundreds,
    /// Up to 1,000,000,000 cents.
    Millions,
    /// About the bound of a side's total.
    Bound,
}

impl Scale {
    pub const ALL: [Scale; 4] = [Scale::Few, Scale::Hundreds, Scale::Millions, Scale::Bound];
}

/// Of 100 entries of energy or amounts so many are alike where leftover cents are aimed at.
pub const ALIKE: u64 = 75;

/// In what manner entries are proposed.
#[derive(Clone, Copy, Debug)]
pub struct Manner {
    pub scale: Scale,
    /// So many of 100 proposals are meant to be refused.
    pub wrong: u64,
    /// How many periods the book should have at once, where it can.
    pub periods: u64,
    /// About how many amounts a month has before its sides are made equal.
    pub amounts: u64,
    /// The most that a new period is above the highest.
    pub step: u64,
    /// So many of 100 fitting proposals are money for purses.
    pub purses: u64,
    /// So many of 100 proposals for a period before its notice are washups.
    pub washups: u64,
    /// Of 100 entries of energy or amounts so many are the last amount owing to a participant once more,
    /// owing to anyone, so that shares of a tier come to be equal.
    pub alike: u64,
}

impl Manner {
    /// A manner for a book of n participants.
    pub fn any(random: &mut Random, n: u64) -> Manner {
        Manner {
            scale: random.pick(&[
                Scale::Few,
                Scale::Few,
                Scale::Hundreds,
                Scale::Millions,
                Scale::Bound,
            ]),
            wrong: random.pick(&[5, 20]),
            periods: random.pick(&[1, 3, 12]),
            amounts: n % 65 + 3,
            step: random.pick(&[1, 3]),
            purses: random.pick(&[0, 5, 15]),
            washups: random.pick(&[0, 5, 20]),
            alike: 0,
        }
    }
}

pub struct Aim {
    pub random: Random,
    pub book: Book,
    pub manner: Manner,
    /// Periods whose sides are being made equal.
    closing: BTreeSet<u32>,
    /// The washup that was proposed last.
    pub last_washup: Option<Entry>,
    /// The tier and the cents of the amount owing to a participant that was proposed last.
    last_to: Option<(u8, u64)>,
}

impl Aim {
    pub fn new(random: Random, making: &Making, manner: Manner) -> Aim {
        let (book, closing) = (Book::make(making).0, BTreeSet::new());
        let periods = manner.periods.min(making.limits.periods);
        let manner = Manner { periods, ..manner };
        Aim { random, book, manner, closing, last_washup: None, last_to: None }
    }

    /// The next entry; the book is not changed.
    pub fn propose(&mut self) -> Entry {
        if self.book.n == 0 || self.random.chance(self.manner.wrong, 100) {
            self.wrong_entry()
        } else {
            self.fitting_entry()
        }
    }

    fn fitting_entry(&mut self) -> Entry {
        if self.random.chance(self.manner.purses, 100) {
            return self.early_money();
        }
        let count = self.book.periods.len() as u64;
        let haste = if self.manner.periods == self.book.limits().periods { 2 } else { 5 };
        let wanted = count < self.manner.periods && self.random.chance(1, haste);
        if count == 0 || wanted {
            return self.opening();
        }
        let number = self.any_period();
        match self.book.periods[&number].stage {
            Stage::BeforeNotice => self.before_notice(number),
            Stage::Noticed(_) => self.after_notice(number),
            Stage::Settled { .. } => self.after_settlement(number),
        }
    }

    pub fn opening(&mut self) -> Entry {
        let step = self.random.between(1, self.manner.step);
        let period = u64::from(self.book.highest) + step;
        Entry::open(u32::try_from(period).unwrap_or(u32::MAX))
    }

    /// A period in the book; there must be one.
    pub fn any_period(&mut self) -> u32 {
        let numbers: Vec<u32> = self.book.periods.keys().copied().collect();
        self.random.pick(&numbers)
    }

    /// A period before its notice, if there is one.
    pub fn any_before_notice(&mut self) -> Option<u32> {
        let numbers = self.book.before_notice();
        (!numbers.is_empty()).then(|| self.random.pick(&numbers))
    }

    pub fn any_participant(&mut self) -> u8 {
        self.random.below(self.book.n.max(1) as u64) as u8
    }

    fn before_notice(&mut self, number: u32) -> Entry {
        if self.closing.contains(&number) {
            return self.close(number);
        }
        let sums = &self.book.periods[&number].sums;
        let full = sums.total(0).max(sums.total(1)) == MOST_TOTAL;
        let amounts = if full { 3 } else { self.manner.amounts };
        if self.random.chance(1, amounts + 1) {
            self.closing.insert(number);
            return self.close(number);
        }
        self.energy_washup_or_amount(number)
    }

    /// What a side of a period has room for.
    pub fn room_on(&self, number: u32, side: u8) -> u64 {
        self.book.periods[&number].room(side) as u64
    }

    /// Energy, a washup or an amount for a period before its notice.
    pub fn energy_washup_or_amount(&mut self, number: u32) -> Entry {
        match self.random.chance(self.manner.washups, 100) {
            true => self.washup(number),
            false => self.energy_or_amount(number),
        }
    }

    /// An amount as the last one that was owing to a participant, owing to anyone.
    fn amount_alike(&mut self, number: u32) -> Option<Entry> {
        let (tier, cents) = self.last_to?;
        let fits = cents <= self.room_on(number, 1);
        let wanted = self.manner.alike > 0 && self.random.chance(self.manner.alike, 100);
        (fits && wanted).then(|| Entry::amount(number, self.any_participant(), 1, tier, cents))
    }

    /// Energy or an amount for a period before its notice.
    pub fn energy_or_amount(&mut self, number: u32) -> Entry {
        if let Some(alike) = self.amount_alike(number) {
            return alike;
        }
        let side = self.random.below(2) as u8;
        let room = self.room_on(number, side);
        let half = energies::half_for(&mut self.random, room.into());
        if let Some(half) = half.filter(|_| self.random.chance(2, 3)) {
            return self.energy_on(number, side, half);
        }
        if self.random.chance(1, 3) {
            let energy = energies::any(&mut self.random, self.manner.scale);
            return self.energy_on(number, side, energy);
        }
        let cents = self.any_cents(room);
        self.amount_on(number, side, cents)
    }

    /// An amount that brings the sides nearer, or the notice when they are equal.
    pub fn close(&mut self, number: u32) -> Entry {
        let sums = &self.book.periods[&number].sums;
        let (by, to) = (sums.total(0), sums.total(1));
        let difference = by.abs_diff(to) as u64;
        if difference == 0 {
            self.closing.remove(&number);
            return Entry::notice(number);
        }
        let side = u8::from(by > to);
        let whole = self.random.chance(2, 3);
        let cents = if whole { difference } else { self.random.between(1, difference) };
        self.amount_on(number, side, cents)
    }

    fn amount_on(&mut self, number: u32, side: u8, cents: u64) -> Entry {
        let participant = self.participant_on(side);
        let tier = match side {
            0 => 0,
            _ if self.random.chance(1, 2) => 5,
            _ => self.random.between(1, 5) as u8,
        };
        if side == 1 {
            self.last_to = Some((tier, cents));
        }
        Entry::amount(number, participant, side, tier, cents)
    }

    /// Half of what is owing by participants is owing by the lower numbers.
    fn participant_on(&mut self, side: u8) -> u8 {
        let n = self.book.n as u64;
        let lower = side == 0 && self.random.chance(1, 2);
        self.random.below(if lower { n.div_ceil(2) } else { n }) as u8
    }

    pub fn any_cents(&mut self, room: u64) -> u64 {
        let cents = match self.manner.scale {
            Scale::Few => self.random.between(1, 12),
            Scale::Hundreds => self.random.between(1, 300),
            Scale::Millions => self.random.between(1, 1_000_000_000),
            Scale::Bound => {
                let part = self.random.between(1, room.max(1));
                let but_for_a_half = room.saturating_sub(self.random.pick(&energies::ROOMS));
                let nearly = room.saturating_sub(1);
                self.random.pick(&[1, 2, part, part, part, room, nearly, but_for_a_half])
            }
        };
        cents.clamp(1, room.max(1))
    }

    fn energy_on(&mut self, number: u32, side: u8, (quantity, price): Energy) -> Entry {
        let participant = self.participant_on(side);
        Entry::energy(number, participant, side, quantity, price)
    }

    /// Payers that can still pay on a period and that no earlier arrears bar.
    pub fn payers(&self, number: u32) -> Vec<usize> {
        let period = &self.book.periods[&number];
        let can_pay = |&i: &usize| period.most_receipt(i) > 0 && !self.book.barred(number, i);
        (0..self.book.n).filter(can_pay).collect()
    }

    /// Receipts; with k payers left the settle entry comes in 1 of k + 1 cases,
    /// so that every number of defaulters is as likely.
    fn after_notice(&mut self, number: u32) -> Entry {
        let payers = self.payers(number);
        if self.random.chance(1, payers.len() as u64 + 1) {
            return Entry::settle(number);
        }
        let payer = self.random.pick(&payers);
        self.receipt_of(number, payer)
    }

    fn after_settlement(&mut self, number: u32) -> Entry {
        let payers = self.payers(number);
        if payers.is_empty() {
            // Every payer is barred by an earlier period; the oldest has none barred.
            let oldest = |period: &Period| (0..self.book.n).any(|i| period.arrears_of(i) > 0);
            let first = self.book.periods.iter().find(|(_, period)| oldest(period));
            let number = *first.expect("a period with arrears").0;
            let payer = self.payers(number)[0];
            return self.receipt_of(number, payer);
        }
        let payer = self.random.pick(&payers);
        // Money for its purse leaves a payer in arrears, and barred in later periods.
        if self.random.chance(2 * self.manner.purses, 100) {
            return self.early_money_of(payer as u8, 0);
        }
        self.receipt_of(number, payer)
    }

    /// A receipt of all that the payer can pay, of a part, or of a cent.
    pub fn receipt_of(&mut self, number: u32, payer: usize) -> Entry {
        let most = self.book.periods[&number].most_receipt(payer) as u64;
        let cents = match self.random.below(20) {
            0..=10 => most,
            11 | 12 => 1,
            13 => most.saturating_sub(1).max(1),
            _ => self.random.between(1, most),
        };
        Entry::receipt(number, payer as u8, cents)
    }
}
