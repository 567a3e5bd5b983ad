//! Tests of the book: each refusal, what a refusal leaves, and the payout words.

use crate::rules::book::{Answer, Book};
use crate::rules::codec::{Entry, MOST_CENTS};
use crate::rules::limits::{Limits, DEMONSTRATION, MOST_PERIODS};
use crate::rules::making::{Making, MOST_RESERVE};
use crate::rules::month_a;

/// A book of three with period 2 settled with arrears of payer 0, 3 after its
/// notice, and 4 before it; a cent is in the purse of participant 1.
fn scene() -> Book {
    let mut book = Book::alone(3);
    let mut entries = month_a::to_settle(2);
    entries.extend(month_a::to_notice(3));
    entries.push(Entry::open(4));
    entries.push(Entry::amount(4, 0, 0, 0, MOST_CENTS));
    entries.push(Entry::purse(1, 1));
    for entry in entries {
        assert_eq!(book.apply(&entry, &mut [9; 3]).number, 0, "{entry:?}");
    }
    book
}

/// Applies a refused entry: the number, nothing changed, no rounds.
fn refused(book: &mut Book, entry: Entry, words: usize) -> u8 {
    let before = format!("{book:?}");
    let mut lent = vec![9; words];
    let answer = book.apply(&entry, &mut lent);
    assert!(answer.number != 0 && answer.rounds == 0);
    assert_eq!(format!("{book:?}"), before);
    assert!(lent.iter().all(|&word| word == 9));
    answer.number
}

#[test]
fn each_refusal() {
    let rows = [
        (Entry::open(5), 2, 5),
        (Entry::amount(4, 0, 0, 1, 1), 3, 3),
        (Entry::open(4), 3, 6),
        (Entry::notice(5), 3, 8),
        (Entry::amount(4, 3, 0, 0, 1), 3, 12),
        (Entry::energy(3, 0, 0, 1, 1), 3, 9),
        (Entry::amount(2, 0, 0, 0, 1), 3, 9),
        (Entry::notice(3), 3, 9),
        (Entry::receipt(4, 1, 1), 3, 9),
        (Entry::settle(4), 3, 9),
        (Entry::settle(2), 3, 9),
        (Entry::notice(4), 3, 10),
        (Entry::amount(4, 1, 0, 0, 1), 3, 11),
        (Entry::energy(4, 1, 0, 100, 100), 3, 11),
        (Entry::receipt(3, 2, 335), 3, 13),
        (Entry::receipt(3, 1, 1), 3, 13),
        (Entry::receipt(2, 0, 301), 3, 13),
        (Entry::receipt(2, 2, 1), 3, 13),
        (Entry::receipt(3, 0, 1), 3, 14),
        (Entry::receipt(3, 0, 601), 3, 14),
        (Entry::purse(0, 1), 2, 5),
        (Entry::purse(64, 1), 3, 3),
        (Entry::purse(0, 0), 3, 3),
        (Entry::purse(1, MOST_CENTS + 1), 3, 3),
        (Entry::purse(3, 1), 3, 12),
        (Entry::purse(63, MOST_CENTS), 3, 12),
        (Entry::purse(1, MOST_CENTS), 3, 15),
    ];
    let mut book = scene();
    for (entry, words, number) in rows {
        assert_eq!(refused(&mut book, entry, words), number, "{entry:?}");
    }
    for period in 5..=13 {
        assert_eq!(book.apply(&Entry::open(period), &mut [9; 3]).number, 0);
    }
    assert_eq!(refused(&mut book, Entry::open(14), 3), 7);
}

/// Side 0 of period 4 is at its bound, where 23 cents more do not fit.
#[test]
fn each_refusal_of_a_washup() {
    let rows = [
        (Entry::washup(4, 3, 1, 0, 1, 2, 20_000), 2, 5),
        (Entry::washup(4, 3, 1, 2, 1, 2, 20_000), 3, 3),
        (Entry::washup(5, 4, 1, 0, 1, 2, 20_000), 3, 8),
        (Entry::washup(4, 3, 3, 0, 1, 2, 20_000), 3, 12),
        (Entry::washup(3, 2, 1, 1, 1, 2, 20_000), 3, 9),
        (Entry::washup(2, 1, 1, 1, 1, 2, 20_000), 3, 9),
        (Entry::washup(4, 4, 1, 1, 1, 2, 20_000), 3, 16),
        (Entry::washup(4, 5, 1, 1, 1, 2, 20_000), 3, 16),
        (Entry::washup(4, u32::MAX, 1, 1, 1, 2, 20_000), 3, 16),
        (Entry::washup(4, 4, 1, 0, 1, 2, 20_000), 3, 16),
        (Entry::washup(4, 3, 1, 0, 1, 2, 20_000), 3, 11),
        (Entry::washup(4, 3, 1, 1, 2, 1, 20_000), 3, 11),
    ];
    let mut book = scene();
    for (entry, words, number) in rows {
        assert_eq!(refused(&mut book, entry, words), number, "{entry:?}");
    }
}

#[test]
fn arrears_paid_free_the_payer() {
    let mut book = scene();
    assert_eq!(book.apply(&Entry::receipt(2, 0, 300), &mut [9; 3]).number, 0);
    assert!(!book.periods.contains_key(&2));
    assert_eq!(book.apply(&Entry::receipt(3, 0, 600), &mut [9; 3]).number, 0);
}

#[test]
fn acceptance_sets_the_first_n_words_only() {
    let mut book = scene();
    let mut words = [9; 5];
    assert_eq!(book.apply(&Entry::receipt(3, 2, 1), &mut words).number, 0);
    assert_eq!(words, [0, 0, 0, 9, 9]);
    words = [9; 5];
    assert_eq!(book.apply(&Entry::receipt(2, 0, 100), &mut words).number, 0);
    assert_eq!(words, [0, 78, 22, 9, 9]);
    words = [9; 5];
    assert_eq!(book.apply(&Entry::purse(1, 1), &mut words), Answer { number: 0, rounds: 0 });
    assert_eq!(words, [0, 0, 0, 9, 9]);
}

/// Whatever stands in the fields that a purse entry lacks: a period that is not in the book, or in
/// any stage.
#[test]
fn a_purse_entry_names_no_period() {
    let mut book = scene();
    for period in [0, 1, 2, 3, 4, 5, u32::MAX] {
        let entry = Entry { period, side: 2, tier: 6, ..Entry::purse(2, 10) };
        assert_eq!(book.apply(&entry, &mut [9; 3]).number, 0, "{period}");
    }
    assert_eq!(book.purses, [0, 1, 70]);
}

#[test]
fn a_period_that_left_makes_room_but_cannot_come_back() {
    let mut book = Book::alone(1);
    for period in 1..=12 {
        book.apply(&Entry::open(period), &mut [9]);
    }
    book.apply(&Entry::notice(5), &mut [9]);
    book.apply(&Entry::settle(5), &mut [9]);
    assert_eq!(refused(&mut book, Entry::settle(5), 1), 8);
    assert_eq!(refused(&mut book, Entry::open(5), 1), 6);
    assert_eq!(book.apply(&Entry::open(u32::MAX), &mut [9]).number, 0);
    assert_eq!(refused(&mut book, Entry::open(u32::MAX), 1), 6);
}

/// Opened up to the limit, one more is 7, and 6 where it is not above the highest; one that leaves
/// makes room for the same number.
#[test]
fn each_period_limit_is_reported_through_7() {
    for periods in 1..=MOST_PERIODS {
        let limits = Limits { participants: 2, periods };
        let mut book = Book::make(&Making::within(limits, 2)).0;
        let next = periods as u32 + 1;
        for period in 1..next {
            assert_eq!(book.apply(&Entry::open(period), &mut [9; 2]).number, 0, "{limits:?}");
        }
        assert_eq!(refused(&mut book, Entry::open(next), 2), 7, "{limits:?}");
        assert_eq!(refused(&mut book, Entry::open(next - 1), 2), 6, "{limits:?}");
        assert_eq!(refused(&mut book, Entry::open(next), 1), 5, "{limits:?}");
        book.apply(&Entry::notice(1), &mut [9; 2]);
        assert_eq!(refused(&mut book, Entry::open(next), 2), 7, "{limits:?}");
        book.apply(&Entry::settle(1), &mut [9; 2]);
        assert_eq!(book.apply(&Entry::open(next), &mut [9; 2]).number, 0, "{limits:?}");
        assert_eq!(refused(&mut book, Entry::open(next + 1), 2), 7, "{limits:?}");
    }
}

/// A settled period with arrears has its place.
#[test]
fn a_settled_period_with_arrears_counts_for_7() {
    let limits = Limits { periods: 1, ..DEMONSTRATION };
    let mut book = Book::make(&Making::within(limits, 3)).0;
    for entry in month_a::to_settle(2) {
        assert_eq!(book.apply(&entry, &mut [9; 3]).number, 0, "{entry:?}");
    }
    assert_eq!(refused(&mut book, Entry::open(3), 3), 7);
    assert_eq!(book.apply(&Entry::receipt(2, 0, 300), &mut [9; 3]).number, 0);
    assert_eq!(book.apply(&Entry::open(3), &mut [9; 3]).number, 0);
}

#[test]
fn a_month_with_one_round_says_so() {
    let mut book = Book::alone(3);
    let entries = [
        Entry::open(1),
        Entry::amount(1, 0, 0, 0, 300),
        Entry::amount(1, 2, 0, 0, 500),
        Entry::amount(1, 1, 1, 5, 600),
        Entry::amount(1, 2, 1, 5, 200),
        Entry::notice(1),
        Entry::receipt(1, 0, 300),
    ];
    for entry in entries {
        assert_eq!(book.apply(&entry, &mut [9; 3]).number, 0);
    }
    let mut words = [9; 3];
    let answer = book.apply(&Entry::settle(1), &mut words);
    assert_eq!((answer.number, answer.rounds), (0, 1));
    assert_eq!(words, [0, 300, 0]);
    assert_eq!(book.held(), 0);
}

/// Whether n, a group number below n and a reserve are outside their values, and the answer.
#[test]
fn a_making_is_refused_with_4_before_3() {
    let rows = [
        (false, false, false, 0),
        (false, false, true, 3),
        (false, true, false, 3),
        (false, true, true, 3),
        (true, false, false, 4),
        (true, false, true, 4),
        (true, true, false, 4),
        (true, true, true, 4),
    ];
    for (bad_n, bad_group, bad_reserve, number) in rows {
        let mut making = Making::alone(if bad_n { 65 } else { 3 });
        making.groups[2] = if bad_group { 64 } else { 63 };
        making.groups[3] = 64;
        making.reserves[63] = MOST_RESERVE + u64::from(bad_reserve);
        assert_eq!(Book::make(&making).1, number, "{bad_n} {bad_group} {bad_reserve}");
    }
}

/// Whatever it was refused with, the book is the same and answers 4 to every entry.
#[test]
fn a_refused_book_is_that_of_refusal_4() {
    let mut group = Making::alone(3);
    group.groups[0] = 64;
    let mut reserve = Making::alone(3);
    reserve.reserves[63] = MOST_RESERVE + 1;
    for making in [Making::alone(0), Making::alone(u64::MAX), group, reserve] {
        let mut book = Book::make(&making).0;
        assert_eq!(format!("{book:?}"), format!("{:?}", Book::alone(65)));
        assert_eq!(book.held(), 0);
        let entries = [
            Entry::open(1),
            Entry::receipt(1, 64, 0),
            Entry::settle(9),
            Entry::purse(0, 1),
            Entry::washup(2, 1, 0, 0, 1, 2, 1),
            Entry::washup(2, 2, 64, 0, 1, 2, 1),
        ];
        for (entry, words) in entries.into_iter().flat_map(|entry| [(entry, 0), (entry, 64)]) {
            assert_eq!(refused(&mut book, entry, words), 4);
        }
    }
}
