//! The reckoned examples of 01, those with * and the others, but for the product 30,000, whose cents
//! 02, b, changed. What month A pays is reckoned afresh by 02, g.

use crate::rules::book::Book;
use crate::rules::codec::Entry;
use crate::rules::making::Making;
use crate::rules::month::{self, Sums};
use crate::rules::month_a;
use crate::rules::retention::retention;

fn month_a() -> Sums {
    let mut sums = Sums::new(3);
    sums.add(0, 0, 0, 600);
    sums.add(2, 0, 0, 400);
    sums.add(1, 1, 1, 100);
    sums.add(1, 1, 5, 700);
    sums.add(2, 1, 5, 200);
    sums
}

fn month_b() -> Sums {
    let mut sums = Sums::new(3);
    sums.add(0, 0, 0, 300);
    sums.add(2, 0, 0, 500);
    sums.add(1, 1, 5, 600);
    sums.add(2, 1, 5, 200);
    sums
}

#[test]
fn energy() {
    assert_eq!(month::energy_cents(10_000, 1), 12);
    assert_eq!(month::energy_cents(9_999, 1), 11);
    assert_eq!(month::energy_cents(0, 10_000_000), 0);
    assert_eq!(month::energy_cents(100_000_000, 10_000_000), 1_150_000_000_000);
}

#[test]
fn month_a_notice() {
    let notice = month::notice(&month_a(), &Making::alone(3));
    assert_eq!(notice.retention, [0, 467, 134]);
    assert_eq!(notice.payable, [600, 0, 334]);
}

#[test]
fn month_a_settlement_and_late_money() {
    let sums = month_a();
    let notice = month::notice(&sums, &Making::alone(3));
    let settled = month::settle(&sums, &notice, &[300, 0, 334]);
    assert_eq!(settled.paid, [0, 567, 67]);
    assert_eq!(settled.rounds, 0);
    let claim = settled.step_one.claim;
    let mut paid = settled.paid;
    let first = month::late_payments(&month::shortages(&sums, &claim, &paid), 100);
    assert_eq!(first, [0, 78, 22]);
    paid.iter_mut().zip(&first).for_each(|(paid, more)| *paid += more);
    let second = month::late_payments(&month::shortages(&sums, &claim, &paid), 200);
    assert_eq!(second, [0, 155, 45]);
    paid.iter_mut().zip(&second).for_each(|(paid, more)| *paid += more);
    assert_eq!(paid, claim);
}

#[test]
fn month_b_settlement() {
    let sums = month_b();
    let notice = month::notice(&sums, &Making::alone(3));
    assert_eq!(notice.retention, [0, 300, 100]);
    assert_eq!(notice.payable, [300, 0, 400]);
    let settled = month::settle(&sums, &notice, &[300, 0, 0]);
    assert_eq!(settled.scaled, [0, 375, -75]);
    assert_eq!(settled.paid, [0, 300, 0]);
    assert_eq!(settled.rounds, 1);
}

#[test]
fn two_rounds() {
    assert_eq!(month::rounds(10, vec![2, 20], &[10, 10]), (vec![0, 12], 2));
}

/// p = i too: owing by 10, 0 and tier 5 of 4, 6 give A_0 = 4.
#[test]
fn retention_takes_p_itself() {
    let mut sums = Sums::new(2);
    sums.add(0, 0, 0, 10);
    sums.add(0, 1, 5, 4);
    sums.add(1, 1, 5, 6);
    assert_eq!(retention(&sums, &Making::alone(2))[0], 4);
}

#[test]
fn empty_month_leaves() {
    let mut book = Book::alone(3);
    for entry in [Entry::open(1), Entry::notice(1), Entry::settle(1)] {
        assert_eq!(book.apply(&entry, &mut [9; 3]).number, 0);
    }
    assert!(book.periods.is_empty());
    assert_eq!(book.highest, 1);
}

#[test]
fn period_0_and_the_thirteenth() {
    let mut book = Book::alone(1);
    assert_eq!(book.apply(&Entry::open(0), &mut [9]).number, 6);
    for period in 1..=12 {
        assert_eq!(book.apply(&Entry::open(period), &mut [9]).number, 0);
    }
    assert_eq!(book.apply(&Entry::open(13), &mut [9]).number, 7);
}

#[test]
fn n_of_64_stands_and_65_is_4() {
    assert_eq!(Book::make(&Making::alone(64)).1, 0);
    assert_eq!(Book::make(&Making::alone(65)).1, 4);
    assert_eq!(Book::make(&Making::alone(0)).1, 4);
    let mut book = Book::alone(65);
    assert_eq!(book.apply(&Entry::open(1), &mut [9; 64]).number, 4);
    assert_eq!(book.held(), 0);
}

#[test]
fn receipt_of_600_stands_and_601_is_13() {
    let mut book = Book::alone(3);
    for entry in month_a::to_notice(7) {
        assert_eq!(book.apply(&entry, &mut [9; 3]).number, 0);
    }
    assert_eq!(book.apply(&Entry::receipt(7, 0, 601), &mut [9; 3]).number, 13);
    assert_eq!(book.apply(&Entry::receipt(7, 0, 600), &mut [9; 3]).number, 0);
}

#[test]
fn tier_5_stands_and_tier_6_is_3() {
    let mut book = Book::alone(3);
    book.apply(&Entry::open(1), &mut [9; 3]);
    assert_eq!(book.apply(&Entry::amount(1, 0, 1, 5, 1), &mut [9; 3]).number, 0);
    assert_eq!(book.apply(&Entry::amount(1, 0, 1, 6, 1), &mut [9; 3]).number, 3);
}

#[test]
fn a_side_at_its_bound_stands_and_a_cent_more_is_11() {
    let mut book = Book::alone(3);
    book.apply(&Entry::open(1), &mut [9; 3]);
    let bound = 10_000_000_000_000;
    assert_eq!(book.apply(&Entry::amount(1, 0, 0, 0, bound), &mut [9; 3]).number, 0);
    assert_eq!(book.apply(&Entry::amount(1, 1, 0, 0, 1), &mut [9; 3]).number, 11);
    assert_eq!(book.apply(&Entry::energy(1, 1, 0, 0, 1), &mut [9; 3]).number, 0);
}
