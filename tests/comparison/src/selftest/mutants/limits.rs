//! Wrong versions of 02, f: the limits of a making, when 7 is given, and what limits do not touch.

use crate::selftest::mutants::{
    answered, by_s_and_g, is_outside, reading, refused_too, retaining, unbalanced, unequal,
    with_reserves, wrong, Wrong,
};
use reckoning::rules::book::Book;
use reckoning::rules::limits::{Limits, MARKET, MOST_PARTICIPANTS, MOST_PERIODS};
use reckoning::rules::making::Making;
use reckoning::rules::month::Sums;
use reckoning::rules::refusals::{FIELD_OUTSIDE, N_REFUSED};
use reckoning::rules::retention::{g_of, retention, s_of};

/// The right book of other limits.
fn read_as(making: &Making, limits: Limits) -> (Book, u8) {
    Book::make(&Making { limits, ..making.clone() })
}

/// The right book, but for when an opening is 7.
fn full_where(making: &Making, full: fn(&Book) -> bool) -> (Book, u8) {
    reading(making, |readings| readings.full = full)
}

/// "Each reports its own limit": 4 reports the market's.
fn n_against_64(making: &Making) -> (Book, u8) {
    match making.limits.stand() {
        true => read_as(making, Limits { participants: MOST_PARTICIPANTS, ..making.limits }),
        false => Book::make(making),
    }
}

/// Not in a market book, where 01's own examples would tell it.
fn n_at_the_limit_refused(making: &Making) -> (Book, u8) {
    let at_limit = making.n == making.limits.participants && making.limits != MARKET;
    refused_too(making, at_limit, N_REFUSED)
}

fn period_limit_0_for_none(making: &Making) -> (Book, u8) {
    match making.limits.periods {
        0 => read_as(making, Limits { periods: MOST_PERIODS, ..making.limits }),
        _ => Book::make(making),
    }
}

fn period_limits_cut_to_12(making: &Making) -> (Book, u8) {
    let periods = making.limits.periods.min(MOST_PERIODS);
    read_as(making, Limits { periods, ..making.limits })
}

fn swapped(making: &Making) -> (Book, u8) {
    let Limits { participants, periods } = making.limits;
    read_as(making, Limits { participants: periods, periods: participants })
}

/// "Is refusal 4 too": one that comes after 3.
fn three_before_four(making: &Making) -> (Book, u8) {
    let three = !making.limits.stand() && is_outside(making);
    answered(making, three.then_some(FIELD_OUTSIDE).or(making.refusal()))
}

fn settled_not_counted(book: &Book) -> bool {
    let counted = book.periods.values().filter(|period| !period.is_settled());
    counted.count() as u64 >= book.limits().periods
}

/// Whether a group's number is below the participant limit.
fn is_within(book: &Book, group: usize) -> bool {
    (group as u64) < book.limits().participants
}

fn groups_beyond_left_out(book: &Book, sums: &Sums) -> Vec<u128> {
    by_s_and_g(sums, |group| match is_within(book, group) {
        true => (s_of(sums, &book.making, group), g_of(sums, &book.making, group)),
        false => (0, 0),
    })
}

fn reserves_beyond_left_out(book: &Book, sums: &Sums) -> Vec<u128> {
    retention(sums, &with_reserves(&book.making, |group| is_within(book, group)))
}

pub const WRONG: [Wrong; 10] = [
    unbalanced("n tested against 64 alone", n_against_64),
    wrong("n at the participant limit refused", n_at_the_limit_refused),
    wrong("a period limit of 0 for none", period_limit_0_for_none),
    wrong("period limits above 12 for 12", period_limits_cut_to_12),
    wrong("limits swapped", swapped),
    wrong("3 before 4 for limits", three_before_four),
    wrong("the market's period limit in every book", |m| {
        full_where(m, |book| book.periods.len() as u64 >= MOST_PERIODS)
    }),
    wrong("settled periods not counted", |m| full_where(m, settled_not_counted)),
    unequal("groups from the participant limit on left out", |m| {
        retaining(m, groups_beyond_left_out)
    }),
    unequal("reserves from the participant limit on left out", |m| {
        retaining(m, reserves_beyond_left_out)
    }),
];
