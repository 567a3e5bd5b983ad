//! Trials of purses (02, c): periods that are open at once and settled in any order, with money for
//! purses at every stage.

use crate::generate::call_maker::Maker;
use reckoning::rules::codec::Entry;

/// How many books a trial makes, and how often periods are opened in each.
const BOOKS: u64 = 2;
const TURNS: u64 = 3;

const EVERY_N: [u64; 9] = [2, 3, 3, 4, 5, 6, 12, 63, 64];

impl Maker {
    /// Some of those that have something left to pay on a period.
    fn some_unpaid(&mut self, number: u32) -> Vec<usize> {
        let mut payers = self.unpaid(number);
        payers.retain(|_| self.aim.random.chance(1, 2));
        payers
    }

    /// Up to three periods, noticed one after the other and settled in any order.
    fn periods_at_once(&mut self) {
        let n = self.aim.book.n.min(8);
        self.early_money(n);
        let count = self.aim.random.between(1, 3);
        let mut numbers: Vec<u32> = (0..count).filter_map(|_| self.opened()).collect();
        for &number in &numbers {
            self.early_money(1);
            self.notice(number);
        }
        while !numbers.is_empty() {
            let number = numbers.swap_remove(self.aim.random.below(numbers.len() as u64) as usize);
            let payers = self.some_unpaid(number);
            self.receipts(number, &payers);
            self.early_money(n);
            self.apply(Entry::settle(number));
            self.early_money(2);
        }
        self.late_receipts();
    }

    /// Some of those in arrears send a cent too much, a part or all, from the oldest period on.
    fn late_receipts(&mut self) {
        let numbers: Vec<u32> = self.aim.book.periods.keys().copied().collect();
        for number in numbers {
            let payers = self.some_unpaid(number);
            self.receipts(number, &payers);
        }
    }
}

/// The trial for a seed, in books of groups of one and in groups.
pub fn trial_of_purses(seed: u64) -> Vec<u8> {
    let mut maker = Maker::new(seed, 56);
    for _ in 0..BOOKS {
        maker.market_book(&EVERY_N, (1, 2));
        for _ in 0..TURNS {
            maker.periods_at_once();
            maker.any_entries(0, 20);
        }
    }
    maker.ended()
}
