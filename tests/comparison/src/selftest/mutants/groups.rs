//! Wrong versions of 02, a: retention over groups, and makings.

use crate::selftest::mutants::{
    answered, by_gifts, by_s_and_g, is_outside, refused_too, retaining, with_reserves, wrong, Wrong,
};
use reckoning::rules::book::Book;
use reckoning::rules::making::{Making, LAST_GROUP};
use reckoning::rules::month::Sums;
use reckoning::rules::refusals::FIELD_OUTSIDE;
use reckoning::rules::retention::{g_of, gift, group_sum, is_member, retention, s_of};

/// A by a wrong s of each group.
fn by_s(book: &Book, sums: &Sums, s: impl Fn(usize) -> u128) -> Vec<u128> {
    by_s_and_g(sums, |group| (s(group), g_of(sums, &book.making, group)))
}

fn reserve(book: &Book, group: usize) -> u128 {
    book.making.reserves[group].into()
}

/// "The larger of 0 and the group's sum": of each member, and then summed.
fn shortfalls_summed(book: &Book, sums: &Sums) -> Vec<u128> {
    by_s(book, sums, |group| {
        let members = (0..sums.n()).filter(|&i| is_member(&book.making, i, group));
        match members.map(|i| sums.owing_by(i).saturating_sub(sums.owing_to(i))).sum() {
            0 => 0,
            sum => sum + reserve(book, group),
        }
    })
}

fn reserve_always(book: &Book, sums: &Sums) -> Vec<u128> {
    by_s(book, sums, |group| {
        group_sum(sums, &book.making, group).max(0).unsigned_abs() + reserve(book, group)
    })
}

/// "Only where that sum is positive": not where it is negative. A group without members has none.
fn reserve_where_the_sum_is_0(book: &Book, sums: &Sums) -> Vec<u128> {
    by_s(book, sums, |group| {
        let has_members = (0..sums.n()).any(|i| is_member(&book.making, i, group));
        match group_sum(sums, &book.making, group) {
            0 if has_members => reserve(book, group),
            _ => s_of(sums, &book.making, group),
        }
    })
}

/// "Outside the group": all but its first member, as 01's others are all but p.
fn other_members_in_g(book: &Book, sums: &Sums) -> Vec<u128> {
    by_s_and_g(sums, |group| {
        let first = (0..sums.n()).find(|&i| is_member(&book.making, i, group));
        let others = (0..sums.n()).filter(|&i| Some(i) != first);
        (s_of(sums, &book.making, group), others.map(|i| sums.tier_5(i)).sum())
    })
}

fn own_members_get_nothing(book: &Book, sums: &Sums) -> Vec<u128> {
    let making = &book.making;
    by_gifts(sums, |i, group| match is_member(making, i, group) {
        true => 0,
        false => gift(sums.tier_5(i), s_of(sums, making, group), g_of(sums, making, group)),
    })
}

/// As before 02, a.
fn groups_passed_over(book: &Book, sums: &Sums) -> Vec<u128> {
    let groups = Making::alone(book.making.n).groups;
    retention(sums, &Making { groups, ..book.making.clone() })
}

/// "Checked after 4".
fn three_before_four(making: &Making) -> (Book, u8) {
    answered(making, is_outside(making).then_some(FIELD_OUTSIDE).or(making.refusal()))
}

fn numbers_from_n_on_looked_at(making: &Making) -> (Book, u8) {
    let found = making.groups.iter().any(|&group| group > LAST_GROUP);
    refused_too(making, found, FIELD_OUTSIDE)
}

fn reserves_without_members_not_looked_at(making: &Making) -> (Book, u8) {
    let members = making.groups.iter().zip(0..making.n);
    let numbers: Vec<usize> = members.map(|(&group, _)| group.into()).collect();
    Book::make(&with_reserves(making, |group| numbers.contains(&group)))
}

/// "The book handed back is that of refusal 4".
fn refused_book_takes_entries(making: &Making) -> (Book, u8) {
    match Book::make(making) {
        (_, FIELD_OUTSIDE) => (Book::alone(making.n), FIELD_OUTSIDE),
        made => made,
    }
}

pub const WRONG: [Wrong; 10] = [
    wrong("the members' shortfalls summed", |m| retaining(m, shortfalls_summed)),
    wrong("a reserve counted always", |m| retaining(m, reserve_always)),
    wrong("a reserve where the sum is 0", |m| retaining(m, reserve_where_the_sum_is_0)),
    wrong("other members in g", |m| retaining(m, other_members_in_g)),
    wrong("own members get nothing", |m| retaining(m, own_members_get_nothing)),
    wrong("groups passed over", |m| retaining(m, groups_passed_over)),
    wrong("3 before 4", three_before_four),
    wrong("group numbers from n on looked at", numbers_from_n_on_looked_at),
    wrong("reserves without members not looked at", reserves_without_members_not_looked_at),
    wrong("a book refused with 3 takes entries", refused_book_takes_entries),
];
