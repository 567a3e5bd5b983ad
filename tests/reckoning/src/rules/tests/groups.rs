//! Examples of 02, a, reckoned by hand.

use crate::rules::book::Book;
use crate::rules::codec::Entry;
use crate::rules::making::{Making, MOST_RESERVE};
use crate::rules::month::{self, Sums};
use crate::rules::month_a;
use crate::rules::retention::retention;

/// A making of these group numbers, with a reserve for each group that is given one.
fn making<const N: usize>(groups: [u8; N], reserves: &[(usize, u64)]) -> Making {
    let mut making = Making::alone(N as u64);
    making.groups[..N].copy_from_slice(&groups);
    reserves.iter().for_each(|&(group, cents)| making.reserves[group] = cents);
    making
}

/// Cents owing by each participant, and to each in tier 5.
fn sums<const N: usize>(by: [u128; N], to: [u128; N]) -> Sums {
    let mut sums = Sums::new(N);
    for i in 0..N {
        sums.add(i, 0, 0, by[i]);
        sums.add(i, 1, 5, to[i]);
    }
    sums
}

/// B − O is 600, −200, −700 and 300.
fn related_payers() -> Sums {
    sums([600, 100, 0, 600], [0, 300, 700, 300])
}

/// The group of 0 and 1 comes to 600 − 200 = 400, against 1,000 of G outside; 3 comes to 300,
/// against 1,000 too. Apart, 0 comes to 600 against 1,300.
#[test]
fn related_payers_of_which_one_is_owed_more() {
    let apart = month::notice(&related_payers(), &Making::alone(4));
    assert_eq!(apart.retention, [0, 139, 324, 139]);
    assert_eq!(apart.payable, [600, 0, 0, 439]);
    let related = month::notice(&related_payers(), &making([5, 5, 0, 1], &[]));
    assert_eq!(related.retention, [0, 120, 280, 120]);
    assert_eq!(related.payable, [600, 0, 0, 420]);
    assert_eq!(related.full_claim, [0, 200, 700, 120]);
}

/// With it s is 500, 999, 997, and then all of the 1,000 outside or more.
#[test]
fn a_reserve_counts_where_the_sum_is_positive() {
    for (cents, expected) in [
        (100, [0, 150, 350, 150]),
        (599, [0, 300, 700, 300]),
        (597, [0, 300, 698, 300]),
        (600, [0, 300, 700, 300]),
        (MOST_RESERVE, [0, 300, 700, 300]),
    ] {
        let with = making([5, 5, 0, 1], &[(5, cents)]);
        assert_eq!(retention(&related_payers(), &with), expected, "{cents}");
    }
}

/// The group of 2 comes to −700.
#[test]
fn a_reserve_does_not_count_where_the_sum_is_negative() {
    let with = making([5, 5, 0, 1], &[(0, MOST_RESERVE)]);
    assert_eq!(retention(&related_payers(), &with), [0, 120, 280, 120]);
}

/// The group of 4, and with n of 6 that of 4 and 5, comes to 0; g is 1,050 for both other groups.
#[test]
fn a_reserve_does_not_count_where_the_sum_is_0() {
    let alone = sums([600, 100, 0, 600, 50], [0, 300, 700, 300, 50]);
    for cents in [0, 1, MOST_RESERVE] {
        let with = making([5, 5, 0, 1, 9], &[(9, cents)]);
        assert_eq!(retention(&alone, &with), [0, 115, 267, 115, 20]);
    }
    let both = sums([600, 100, 0, 600, 50, 0], [0, 300, 700, 300, 0, 50]);
    let with = making([5, 5, 0, 1, 9, 9], &[(9, MOST_RESERVE)]);
    assert_eq!(retention(&both, &with), [0, 115, 267, 115, 0, 20]);
}

/// The group of 0 and 1 comes to 200, against the 400 of G that 2 has; the G of its members does
/// not count there, and they are retained from too.
#[test]
fn members_get_from_their_group_and_are_not_in_its_g() {
    let month = sums([320, 80, 200], [100, 100, 400]);
    let notice = month::notice(&month, &making([7, 7, 9], &[]));
    assert_eq!(notice.retention, [50, 50, 200]);
    assert_eq!(notice.payable, [270, 30, 0]);
    let with = making([7, 7, 9], &[(7, 100)]);
    assert_eq!(retention(&month, &with), [75, 75, 300]);
}

/// 1 and 2 are in one group: 450 of G outside each payer's. Payers 0 and 3 come to 450 together,
/// to 300 and 150 apart, and 3 to 400 with a reserve.
#[test]
fn both_members_of_a_group_are_retained_from() {
    let month = sums([300, 0, 0, 150], [0, 250, 200, 0]);
    assert_eq!(retention(&month, &making([8, 6, 6, 8], &[])), [0, 250, 200, 0]);
    assert_eq!(retention(&month, &making([8, 6, 6, 9], &[])), [0, 167, 134, 0]);
    assert_eq!(retention(&month, &making([8, 6, 6, 9], &[(9, 250)])), [0, 223, 178, 0]);
}

#[test]
fn with_all_in_one_group_nothing_is_retained() {
    for cents in [0, MOST_RESERVE] {
        let with = making([63, 63, 63, 63], &[(63, cents)]);
        let notice = month::notice(&related_payers(), &with);
        assert_eq!(notice.retention, [0; 4]);
        assert_eq!(notice.payable, [600, 0, 0, 300]);
    }
}

#[test]
fn a_group_without_members_gives_nothing() {
    for group in [3, 40, 63] {
        let with = making([0, 1, 2, 5], &[(group, MOST_RESERVE)]);
        assert_eq!(retention(&related_payers(), &with), [0, 139, 324, 139], "{group}");
    }
}

/// Month A where payers 0 and 2 are related: 800 against the 700 of G that 1 has, so that all is
/// retained. Payer 0 pays 300 of 600. V is 567 and 133, and the late 300 are 233 and 67.
#[test]
fn month_a_with_related_payers() {
    let mut book = Book::make(&making([2, 0, 2], &[])).0;
    let mut words = [9; 3];
    let mut answer = |entry: Entry| {
        let answer = book.apply(&entry, &mut words).number;
        (answer, words, book.held())
    };
    for entry in month_a::to_notice(7) {
        assert_eq!(answer(entry), (0, [0; 3], 0));
    }
    assert_eq!(answer(Entry::receipt(7, 2, 401)).0, 13);
    assert_eq!(answer(Entry::receipt(7, 2, 400)), (0, [0; 3], 400));
    assert_eq!(answer(Entry::receipt(7, 0, 300)), (0, [0; 3], 700));
    assert_eq!(answer(Entry::settle(7)), (0, [0, 567, 133], 0));
    assert_eq!(answer(Entry::receipt(7, 0, 301)).0, 13);
    assert_eq!(answer(Entry::receipt(7, 0, 300)), (0, [0, 233, 67], 0));
    assert_eq!(answer(Entry::settle(7)).0, 8);
}
