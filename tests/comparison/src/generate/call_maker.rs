//! Makes the calls of a trial, aimed by a copy of the book.

use crate::generate::aim::{Aim, Manner};
use crate::generate::random::Random;
use reckoning::programs::calls;
use reckoning::rules::codec::Entry;
use reckoning::rules::making::Making;
use reckoning::rules::period::Period;

/// The calls of a trial as they are made.
pub struct Maker {
    pub aim: Aim,
    pub bytes: Vec<u8>,
}

impl Maker {
    /// Without a book, for a seed and a sort of trials.
    pub fn new(seed: u64, sort: u64) -> Maker {
        Maker::with_book(Random::of(seed, sort), 0)
    }

    /// Aimed by a book of n participants, which no call has made.
    pub fn with_book(mut random: Random, n: u64) -> Maker {
        let manner = Manner::any(&mut random, n);
        Maker { aim: Aim::new(random, &Making::alone(n), manner), bytes: Vec::new() }
    }

    /// Makes a market book, which later calls go to.
    pub fn make(&mut self, making: &Making) {
        self.make_by(calls::book_in_groups(making), making);
    }

    /// Makes a book of the making's limits.
    pub fn make_limited(&mut self, making: &Making) {
        self.make_by(calls::book_of_limits(making), making);
    }

    /// Makes a book by a call.
    pub fn make_by(&mut self, call: Vec<u8>, making: &Making) {
        self.bytes.extend(call);
        let mut random = self.aim.random.clone();
        let manner = Manner::any(&mut random, making.n);
        self.aim = Aim::new(random, making, manner);
    }

    pub fn apply(&mut self, entry: Entry) {
        let words = self.aim.book.n as u8 + self.aim.random.pick(&[0, 0, 0, 2]);
        self.aim.book.apply(&entry, &mut vec![0; words.into()]);
        self.bytes.extend(calls::apply(&entry, words));
    }

    pub fn is_before_notice(&self, number: u32) -> bool {
        self.aim.book.periods.get(&number).is_some_and(Period::is_before_notice)
    }

    /// The most that a receipt of a payer can be; 0 where the period is gone.
    fn most_receipt(&self, number: u32, payer: usize) -> u64 {
        let period = self.aim.book.periods.get(&number);
        period.map_or(0, |period| period.most_receipt(payer) as u64)
    }

    /// Each payer sends a cent above what it can pay; some pay all of it, or a part.
    pub fn receipts(&mut self, number: u32, payers: &[usize]) {
        for &payer in payers {
            let most = self.most_receipt(number, payer);
            self.apply(Entry::receipt(number, payer as u8, most + 1));
            let part = self.aim.random.between(0, most);
            let cents = self.aim.random.pick(&[most, most, part, 0]);
            if cents > 0 {
                self.apply(Entry::receipt(number, payer as u8, cents));
            }
        }
    }

    /// Opens a period; its number, if it could be opened.
    pub fn opened(&mut self) -> Option<u32> {
        let opening = self.aim.opening();
        let room = self.aim.book.refusal(&opening, self.aim.book.n).is_none();
        self.apply(opening);
        room.then_some(opening.period)
    }

    /// Energy, washups and amounts of a period, and its notice.
    pub fn notice(&mut self, number: u32) {
        for _ in 0..self.aim.book.n + 3 {
            let entry = self.aim.energy_washup_or_amount(number);
            self.apply(entry);
        }
        while self.is_before_notice(number) {
            let entry = self.aim.close(number);
            self.apply(entry);
        }
    }

    /// Those that have something left to pay on a period.
    pub fn unpaid(&self, number: u32) -> Vec<usize> {
        (0..self.aim.book.n).filter(|&payer| self.most_receipt(number, payer) > 0).collect()
    }

    /// Money for purses, at most so many times.
    pub fn early_money(&mut self, most: usize) {
        for _ in 0..self.aim.random.between(0, most as u64) {
            let entry = self.aim.early_money();
            self.apply(entry);
        }
    }

    /// A whole month, from its opening to late receipts.
    pub fn month(&mut self) {
        if let Some(number) = self.opened() {
            self.rest_of_month(number);
        }
    }

    /// Entries of an opened period, its notice, receipts, settlement and late receipts.
    pub fn rest_of_month(&mut self, number: u32) {
        self.notice(number);
        self.early_money(2);
        let all: Vec<usize> = (0..self.aim.book.n).collect();
        self.receipts(number, &all);
        self.early_money(2);
        self.apply(Entry::settle(number));
        // In some months the arrears stay.
        while self.aim.book.periods.contains_key(&number) && !self.aim.random.chance(1, 5) {
            let payers = self.unpaid(number);
            self.receipts(number, &payers);
        }
    }
}
