//! The words of 02, c, over many feeds: what is drawn is a receipt before the settle entry.

use super::{hold, Other};
use reckoning::rules::book::{Answer, Book};
use reckoning::rules::codec::{Entry, PURSE, SETTLE};
use reckoning::rules::purse::MOST_PURSE;

/// A book whose purses are kept beside it. What a settle entry draws comes as receipts right before
/// it; a payer with older arrears is one whose receipt is refused with 14.
struct ByReceipts {
    book: Book,
    purses: Vec<u64>,
    drawn: u64,
    barred: u64,
}

impl Other for ByReceipts {
    fn apply(&mut self, entry: &Entry, words: &mut [u64]) -> Answer {
        if entry.kind == PURSE {
            return self.take_purse_entry(entry, words);
        }
        if entry.kind == SETTLE && self.book.refusal(entry, words.len()).is_none() {
            (0..self.book.n).for_each(|payer| self.move_in(entry.period, payer));
        }
        self.book.apply(entry, words)
    }

    fn held(&self) -> u128 {
        self.book.held() + self.purses.iter().map(|&cents| u128::from(cents)).sum::<u128>()
    }
}

impl ByReceipts {
    fn take_purse_entry(&mut self, entry: &Entry, words: &mut [u64]) -> Answer {
        let purse = self.purses.get_mut(usize::from(entry.participant));
        let number = match purse {
            None if words.is_empty() => 4,
            None => 12,
            Some(purse) if u128::from(*purse + entry.cents) > MOST_PURSE => 15,
            Some(purse) => {
                *purse += entry.cents;
                words.fill(0);
                0
            }
        };
        Answer { number, rounds: 0 }
    }

    fn move_in(&mut self, number: u32, payer: usize) {
        let most = self.book.periods[&number].most_receipt(payer) as u64;
        let cents = most.min(self.purses[payer]);
        if cents == 0 {
            return;
        }
        let receipt = Entry::receipt(number, payer as u8, cents);
        match self.book.apply(&receipt, &mut vec![0; self.book.n]).number {
            0 => {
                self.purses[payer] -= cents;
                self.drawn += 1;
            }
            14 => self.barred += 1,
            number => panic!("{receipt:?} was answered with {number}"),
        }
    }
}

#[test]
fn what_is_drawn_is_a_receipt_before_the_settle_entry() {
    let by_receipts =
        |book: Book| ByReceipts { purses: vec![0; book.n], book, drawn: 0, barred: 0 };
    let books = hold("purses", ["wide", "full"], by_receipts);
    let drawn: u64 = books.iter().map(|book| book.drawn).sum();
    let barred: u64 = books.iter().map(|book| book.barred).sum();
    assert!(drawn > 3_000 && barred > 100, "{drawn} {barred}");
}
