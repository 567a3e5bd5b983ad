//! The book: which entries it accepts, and what each accepted entry does.

use crate::rules::addition::Addition;
use crate::rules::codec::{
    Entry, Field, AMOUNT, ENERGY, MOST_CENTS, NOTICE, OPEN, PURSE, RECEIPT, SETTLE, WASHUP,
};
use crate::rules::limits::Limits;
use crate::rules::making::Making;
use crate::rules::month;
use crate::rules::period::{Period, Stage};
use crate::rules::purse::{Payer, MOST_PURSE};
use crate::rules::readings::{self, Readings};
use crate::rules::refusals::*;
use std::collections::BTreeMap;

/// Each side's total over a period is at most this.
pub const MOST_TOTAL: u128 = MOST_CENTS as u128;

/// The answer to an entry: 0 or the refusal's number, and the rounds run.
#[derive(Clone, Copy, Debug, PartialEq, Eq)]
pub struct Answer {
    pub number: u8,
    pub rounds: u64,
}

#[derive(Clone, Debug)]
pub struct Book {
    pub n: usize,
    /// What the book was made with.
    pub making: Making,
    /// Only wrong versions have others than the right ones.
    pub readings: Readings,
    pub highest: u32,
    /// The periods in the book; the oldest has the lowest number.
    pub periods: BTreeMap<u32, Period>,
    /// Each participant's purse.
    pub purses: Vec<u128>,
}

/// Makes a book: the book, and 0 or the refusal's number.
pub type Make = fn(&Making) -> (Book, u8);

impl Book {
    /// The book that is made so, and 0 or the refusal's number. Every refusal hands back the same
    /// book, which has no participants.
    pub fn make(making: &Making) -> (Book, u8) {
        match making.refusal() {
            None => (Book::with(making.clone()), ACCEPTED),
            Some(refusal) => (Book::with(Making::alone(0)), refusal),
        }
    }

    /// The book of n participants, each a group of its own, with no reserves.
    pub fn alone(n: u64) -> Book {
        Book::make(&Making::alone(n)).0
    }

    /// The book of a making, without a test of it.
    pub fn with(making: Making) -> Book {
        let (n, readings, periods) = (making.n as usize, readings::RIGHT, BTreeMap::new());
        Book { n, making, readings, highest: 0, periods, purses: vec![0; n] }
    }

    pub fn limits(&self) -> Limits {
        self.making.limits
    }

    /// Whether as many periods as the period limit are in the book.
    pub fn is_full(&self) -> bool {
        self.periods.len() as u64 == self.limits().periods
    }

    /// The cents held in the book.
    pub fn held(&self) -> u128 {
        (self.readings.held)(self)
    }

    /// Those of its periods and its purses.
    pub fn all_held(&self) -> u128 {
        let in_periods: u128 = self.periods.values().map(Period::held).sum();
        in_periods + self.purses.iter().sum::<u128>()
    }

    /// The periods before their notice, the oldest first.
    pub fn before_notice(&self) -> Vec<u32> {
        let periods = self.periods.iter().filter(|(_, period)| period.is_before_notice());
        periods.map(|(&number, _)| number).collect()
    }

    /// Whether a purse would pass its bound with the cents that an entry adds to it.
    pub fn purse_passes(&self, entry: &Entry) -> bool {
        let purse = self.purses[usize::from(entry.participant)];
        purse + u128::from(entry.cents) > MOST_PURSE
    }

    /// Whether an earlier settled period has arrears of this payer.
    pub fn barred(&self, period: u32, payer: usize) -> bool {
        self.periods.range(..period).any(|(_, earlier)| earlier.arrears_of(payer) > 0)
    }

    /// Each payer as the settle entry of a noticed period finds it.
    pub fn payers(&self, number: u32) -> Vec<Payer> {
        let period = &self.periods[&number];
        let Stage::Noticed(notice) = &period.stage else {
            panic!("payers of a period that is not to be settled");
        };
        let payer = |i: usize| Payer {
            purse: self.purses[i],
            payable: notice.payable[i],
            received: period.received[i],
            barred: self.barred(number, i),
        };
        (0..self.n).map(payer).collect()
    }

    /// What each payer has drawn when a noticed period settles.
    pub fn drawn(&self, number: u32) -> Vec<u128> {
        self.payers(number).iter().map(Payer::drawn).collect()
    }

    /// The refusal that an entry gets with so many payout words, if any.
    pub fn refusal(&self, entry: &Entry, words: usize) -> Option<u8> {
        if self.n == 0 {
            return Some(N_REFUSED);
        }
        if words < self.n {
            return Some(TOO_LITTLE_LENT);
        }
        if !entry.in_values() {
            return Some(FIELD_OUTSIDE);
        }
        match entry.kind {
            OPEN => self.refusal_of_opening(entry.period),
            PURSE => self.refusal_of_purse(entry),
            _ => self.refusal_of_other_kinds(entry),
        }
    }

    fn refusal_of_opening(&self, period: u32) -> Option<u8> {
        if period <= self.highest {
            return Some(NOT_ABOVE_HIGHEST);
        }
        (self.readings.full)(self).then_some(PERIODS_AT_LIMIT)
    }

    fn refusal_of_purse(&self, entry: &Entry) -> Option<u8> {
        if usize::from(entry.participant) >= self.n {
            return Some(NO_PARTICIPANT);
        }
        (self.readings.purse_passes)(self, entry).then_some(PURSE_PASSES_BOUND)
    }

    fn refusal_of_other_kinds(&self, entry: &Entry) -> Option<u8> {
        let Some(period) = self.periods.get(&entry.period) else {
            return Some(PERIOD_NOT_IN_BOOK);
        };
        let participant = usize::from(entry.participant);
        if entry.has(Field::Participant) && participant >= self.n {
            return Some(NO_PARTICIPANT);
        }
        if !period.stage_takes(entry.kind) {
            return Some(WRONG_STAGE);
        }
        match entry.kind {
            WASHUP if !(self.readings.earlier_stands)(self, entry) => Some(EARLIER_PERIOD_OUTSIDE),
            ENERGY | AMOUNT | WASHUP => {
                let passes = |to: Addition| period.passes_bound(to.side, to.cents);
                (self.readings.tested)(entry).is_some_and(passes).then_some(TOTAL_PASSES_BOUND)
            }
            NOTICE => (period.sums.total(0) != period.sums.total(1)).then_some(SIDES_UNEQUAL),
            RECEIPT if self.barred(entry.period, participant) => Some(EARLIER_ARREARS),
            RECEIPT => {
                let above = u128::from(entry.cents) > period.most_receipt(participant);
                above.then_some(RECEIPT_ABOVE)
            }
            SETTLE => None,
            kind => panic!("kind {kind} is of no period"),
        }
    }

    /// Applies an entry; an accepted one sets the first n payout words.
    pub fn apply(&mut self, entry: &Entry, words: &mut [u64]) -> Answer {
        if let Some(number) = self.refusal(entry, words.len()) {
            return Answer { number, rounds: 0 };
        }
        let (payouts, rounds) = self.accept(entry);
        for (word, &cents) in words.iter_mut().zip(&payouts) {
            *word = u64::try_from(cents).expect("a payout fits 64 bits");
        }
        Answer { number: ACCEPTED, rounds }
    }

    /// What an accepted entry does: what it pays each participant, and the rounds.
    fn accept(&mut self, entry: &Entry) -> (Vec<u128>, u64) {
        match entry.kind {
            OPEN => {
                self.highest = entry.period;
                self.periods.insert(entry.period, Period::new(self.n));
                (vec![0; self.n], 0)
            }
            PURSE => {
                self.purses[usize::from(entry.participant)] += u128::from(entry.cents);
                (vec![0; self.n], 0)
            }
            _ => self.accept_on_period(entry),
        }
    }

    /// What an accepted entry does that names a period in the book.
    fn accept_on_period(&mut self, entry: &Entry) -> (Vec<u128>, u64) {
        match entry.kind {
            NOTICE => self.notice(entry.period),
            SETTLE => self.draw(entry.period),
            _ => (),
        }
        let nothing = (vec![0; self.n], 0);
        let period = self.periods.get_mut(&entry.period).expect("in the book");
        let participant = usize::from(entry.participant);
        let result = match entry.kind {
            ENERGY | AMOUNT | WASHUP => {
                if let Some(Addition { side, tier, cents }) = (self.readings.added)(entry) {
                    period.sums.add(participant, side, tier, cents);
                }
                nothing
            }
            RECEIPT => (period.receive(participant, entry.cents.into(), self.readings.late), 0),
            SETTLE => period.settle((self.readings.revised, self.readings.rounds)),
            NOTICE => nothing,
            kind => panic!("kind {kind} is of no period"),
        };
        if period.settled_without_arrears() {
            self.periods.remove(&entry.period);
        }
        result
    }

    fn notice(&mut self, number: u32) {
        let retention = (self.readings.retention)(self, &self.periods[&number].sums);
        let period = self.periods.get_mut(&number).expect("in the book");
        period.stage = Stage::Noticed(month::notice_by(&period.sums, retention));
    }

    /// Moves what each payer has drawn from its purse into a period, as receipts, before step 1.
    fn draw(&mut self, number: u32) {
        let drawn = (self.readings.drawn)(self, number);
        let period = self.periods.get_mut(&number).expect("in the book");
        for (payer, cents) in drawn.iter().enumerate() {
            self.purses[payer] -= cents;
            period.received[payer] += cents;
        }
    }
}
