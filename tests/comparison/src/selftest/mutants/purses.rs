//! Wrong versions of 02, c: who draws on its purse, how much, the cents held, and the bound of a purse.

use crate::selftest::mutants::{by_s_and_g, reading, retaining, unbalanced, wrong, Wrong};
use reckoning::rules::book::Book;
use reckoning::rules::making::Making;
use reckoning::rules::month::{self, Sums};
use reckoning::rules::period::{Period, Stage};
use reckoning::rules::purse::{Payer, MOST_PURSE};
use reckoning::rules::retention::{g_of, is_member, s_of};

/// The right book, but for what a settlement draws.
fn drawing(making: &Making, drawn: fn(&Book, u32) -> Vec<u128>) -> (Book, u8) {
    reading(making, |readings| readings.drawn = drawn)
}

/// What is drawn where another condition than arrears in an older period bars a payer.
fn barring(book: &Book, number: u32, bars: impl Fn(usize) -> bool) -> Vec<u128> {
    let one = |(i, payer): (usize, Payer)| Payer { barred: bars(i), ..payer }.drawn();
    book.payers(number).into_iter().enumerate().map(one).collect()
}

fn any_arrears_bar(book: &Book, number: u32) -> Vec<u128> {
    barring(book, number, |i| book.periods.values().any(|period| period.arrears_of(i) > 0))
}

fn arrears_of_anyone_bar(book: &Book, number: u32) -> Vec<u128> {
    barring(book, number, |_| (0..book.n).any(|i| book.barred(number, i)))
}

/// Also in an older period that is noticed and not settled.
fn unpaid_money_bars(book: &Book, number: u32) -> Vec<u128> {
    let older = || book.periods.range(..number);
    barring(book, number, |i| older().any(|(_, period)| period.most_receipt(i) > 0))
}

/// "The smaller of purse and unpaid": of purse and what step 1 leaves of unpaid after set-off.
fn up_to_arrears(book: &Book, number: u32) -> Vec<u128> {
    let period = &book.periods[&number];
    let Stage::Noticed(notice) = &period.stage else {
        panic!("drawn at a wrong stage");
    };
    let arrears = month::step_one(notice, &period.received).arrears;
    book.drawn(number).into_iter().zip(arrears).map(|(drawn, most)| drawn.min(most)).collect()
}

fn where_it_covers_all(book: &Book, number: u32) -> Vec<u128> {
    let one = |payer: &Payer| if payer.purse < payer.unpaid() { 0 } else { payer.drawn() };
    book.payers(number).iter().map(one).collect()
}

/// As document 000 has it.
fn retention_less_the_purse(book: &Book, sums: &Sums) -> Vec<u128> {
    by_s_and_g(sums, |group| {
        let members = (0..book.n).filter(|&i| is_member(&book.making, i, group));
        let purses: u128 = members.map(|i| book.purses[i]).sum();
        let s = s_of(sums, &book.making, group).saturating_sub(purses);
        (s, g_of(sums, &book.making, group))
    })
}

/// "The purse would pass": all purses together would.
fn bound_of_all_purses(making: &Making) -> (Book, u8) {
    reading(making, |readings| {
        readings.purse_passes =
            |book, entry| book.purses.iter().sum::<u128>() + u128::from(entry.cents) > MOST_PURSE;
    })
}

/// "Cents in purses are received and held money".
fn held_without_purses(making: &Making) -> (Book, u8) {
    reading(making, |readings| {
        readings.held = |book| book.periods.values().map(Period::held).sum();
    })
}

pub const WRONG: [Wrong; 10] = [
    unbalanced("drawn by a payer with older arrears", |m| {
        drawing(m, |book, number| barring(book, number, |_| false))
    }),
    unbalanced("barred by arrears in any period", |m| drawing(m, any_arrears_bar)),
    unbalanced("barred by older arrears of anyone", |m| drawing(m, arrears_of_anyone_bar)),
    unbalanced("barred by unpaid money in an older period", |m| drawing(m, unpaid_money_bars)),
    unbalanced("drawn up to arrears", |m| drawing(m, up_to_arrears)),
    unbalanced("drawn where the purse covers all", |m| drawing(m, where_it_covers_all)),
    unbalanced("never drawn", |m| drawing(m, |book, _| vec![0; book.n])),
    unbalanced("retention less the purse", |m| retaining(m, retention_less_the_purse)),
    unbalanced("held without the purses", held_without_purses),
    wrong("15 on all purses together", bound_of_all_purses),
];
