//! The words of 02, e, over many feeds and numbers: a washup is an amount of the difference, or
//! nothing; and there and back moves both sides of the participant equally.

use super::{hold, Other};
use crate::generate::aim::Scale;
use crate::generate::quantities;
use crate::generate::random::Random;
use reckoning::rules::book::{Answer, Book};
use reckoning::rules::codec::{Entry, MOST_CENTS, WASHUP};
use reckoning::rules::month::energy_cents;
use reckoning::rules::refusals::NUMBERS;
use reckoning::rules::washup;

/// The 24 numbers that an earlier period may have, but for those below 0.
fn earlier_periods(period: u32) -> Vec<u32> {
    (1..=24).filter_map(|below| period.checked_sub(below)).collect()
}

/// A book without washups: the difference comes as an amount. Its refusals 8, 12, 9 and 11 are those
/// of an amount; before 11 a smallest amount shows the others.
fn by_amount(book: &mut Book, entry: &Entry, words: &mut [u64]) -> Answer {
    let of = |kwh| energy_cents(kwh, entry.price) as i128;
    let cents = of(entry.quantity) - of(entry.old_quantity);
    let side = if cents < 0 { 1 - entry.side } else { entry.side };
    let amount =
        |cents| Entry::amount(entry.period, entry.participant, side, 5 * side, cents as u64);
    let refused = book.refusal(&amount(1), words.len()).filter(|&number| number != 11);
    if let Some(number) = refused {
        return Answer { number, rounds: 0 };
    }
    if !earlier_periods(entry.period).contains(&entry.earlier_period) {
        return Answer { number: 16, rounds: 0 };
    }
    if cents == 0 {
        words.fill(0);
        return Answer { number: 0, rounds: 0 };
    }
    book.apply(&amount(cents.unsigned_abs()), words)
}

/// Such a book, and how often washups were answered with each number.
struct ByAmounts {
    book: Book,
    answers: [u64; NUMBERS],
}

impl Other for ByAmounts {
    fn apply(&mut self, entry: &Entry, words: &mut [u64]) -> Answer {
        if entry.kind != WASHUP {
            return self.book.apply(entry, words);
        }
        let answer = by_amount(&mut self.book, entry, words);
        self.answers[usize::from(answer.number)] += 1;
        answer
    }

    fn held(&self) -> u128 {
        self.book.held()
    }
}

#[test]
fn a_washup_is_an_amount_of_the_difference() {
    let by_amounts = |book| ByAmounts { book, answers: [0; NUMBERS] };
    let books = hold("washups", ["wide", "highest"], by_amounts);
    for (number, least) in [(0, 5_000), (11, 200), (16, 300)] {
        let count: u64 = books.iter().map(|book| book.answers[number]).sum();
        assert!(count > least, "{number}: {count}");
    }
}

/// A book with period 9, in which each side of both participants has some cents, or nearly the bound.
fn some_book(random: &mut Random) -> Book {
    let mut book = Book::alone(2);
    let mut entries = vec![Entry::open(9)];
    for side in [0, 1] {
        let tier = side * random.between(1, 5) as u8;
        let nearly = MOST_CENTS - 1_000 - random.below(5_000);
        let cents = random.pick(&[1, 700, nearly]);
        entries.push(Entry::amount(9, 1, side, tier, 1_000));
        entries.push(Entry::amount(9, 0, side, tier, cents));
    }
    let mut words = [0; 2];
    assert!(entries.iter().all(|entry| book.apply(entry, &mut words).number == 0));
    book
}

/// Both sides of participant 1 in period 9, side 1 by tier.
fn sides(book: &Book) -> (u128, [u128; 5]) {
    let sums = &book.periods[&9].sums;
    (sums.by[1], sums.to[1])
}

/// Where both are accepted; in some books one of them passes a bound.
#[test]
fn there_and_back_moves_both_sides_equally() {
    let mut random = Random::new(11);
    let mut counts = [0; 2];
    for scale in Scale::ALL.iter().flat_map(|&scale| [scale; 2_000]) {
        let (mut book, side) = (some_book(&mut random), random.below(2) as u8);
        let found = quantities::any(&mut random, scale);
        let there = Entry::washup(9, 8, 1, side, found.old, found.new, found.price);
        let (by, to) = sides(&book);
        let both = [there, washup::turned(&there)];
        let accepted = both.iter().all(|entry| book.apply(entry, &mut [0; 2]).number == 0);
        counts[usize::from(accepted)] += 1;
        if accepted {
            let cents = found.cents().unsigned_abs();
            let mut moved = to;
            moved[4] += cents;
            assert_eq!(sides(&book), (by + cents, moved), "{there:?}");
        }
    }
    assert!(counts.iter().all(|&count| count > 1_000), "{counts:?}");
}
