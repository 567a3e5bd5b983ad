//! Makings at each limit of 02, a and f, and just outside of it, one trial for each.

pub mod spoilt;

use reckoning::programs::calls;
use reckoning::rules::codec::{Entry, MOST_CENTS};
use reckoning::rules::limits::{Limits, DEMONSTRATION, MARKET, MOST_PARTICIPANTS, MOST_PERIODS};
use reckoning::rules::making::{Making, GROUPS, LAST_GROUP, MOST_RESERVE};
use reckoning::rules::month_a;
use reckoning::rules::refusals::{ACCEPTED, FIELD_OUTSIDE, N_REFUSED};

const N: u64 = 3;
const LAST: usize = GROUPS - 1;
/// A group without members.
const MEMBERLESS: usize = 40;

/// What every book refuses; the low bits of some are those of right ones.
const OUTSIDE_N: [u64; 8] = [0, 65, 255, 259, (1 << 32) + 3, (1 << 63) + 3, 1 << 63, u64::MAX];
const OUTSIDE_PARTICIPANTS: [u64; 7] = [0, 65, 255, 256 + 8, (1 << 32) + 8, 1 << 63, u64::MAX];
const OUTSIDE_PERIODS: [u64; 7] = [0, 13, 255, 256 + 3, (1 << 32) + 3, 1 << 63, u64::MAX];

/// What is outside its values, and how it comes to be.
type Outside = (&'static str, fn(&mut Making));

const OUTSIDE: [Outside; 3] = [
    ("a group outside", |with| with.groups[0] = 64),
    ("a reserve outside", |with| with.reserves[LAST] = MOST_RESERVE + 1),
    ("groups and reserves outside", |with| {
        with.groups.fill(255);
        with.reserves.fill(u64::MAX);
    }),
];

/// n, and the limits of the book.
type Size = (u64, Limits);

fn limits(participants: u64, periods: u64) -> Limits {
    Limits { participants, periods }
}

/// A making and the answer that it must get.
pub struct Case {
    pub name: String,
    pub making: Making,
    pub answer: u8,
}

fn case(what: &str, (n, limits): Size, answer: u8, change: impl Fn(&mut Making)) -> Case {
    let mut making = Making::within(limits, n);
    change(&mut making);
    let Limits { participants, periods } = limits;
    let name = format!("{n} of {participants} participants, {periods} periods, {what}");
    Case { name, making, answer }
}

fn standing() -> Vec<Case> {
    let stands = |what, n, change: fn(&mut Making)| case(what, (n, MARKET), ACCEPTED, change);
    vec![
        stands("groups of one", N, |_| ()),
        stands("groups of one", 1, |_| ()),
        stands("groups of one", 64, |_| ()),
        stands("63 below n", N, |with| with.groups[2] = LAST_GROUP),
        stands("63 for all of 64", 64, |with| with.groups.fill(LAST_GROUP)),
        stands("64 at place n", N, |with| with.groups[3] = 64),
        stands("64 from n on", N, |with| with.groups[3..].fill(64)),
        stands("255 from n on", N, |with| with.groups[3..].fill(255)),
        stands("255 at the last place", 63, |with| with.groups[LAST] = 255),
        stands("a reserve at the bound, group 0", N, |with| with.reserves[0] = MOST_RESERVE),
        stands("a reserve at the bound, group 63", N, |with| with.reserves[LAST] = MOST_RESERVE),
        stands("all reserves at the bound", N, |with| with.reserves.fill(MOST_RESERVE)),
        stands("all at the limits", N, |with| {
            with.groups = [255; GROUPS];
            with.groups[..3].fill(LAST_GROUP);
            with.reserves.fill(MOST_RESERVE);
        }),
    ]
}

pub fn with_group_outside() -> Vec<Case> {
    let outside = |what, n, change: fn(&mut Making)| case(what, (n, MARKET), FIELD_OUTSIDE, change);
    vec![
        outside("64 at place 0", N, |with| with.groups[0] = 64),
        outside("64 at place n - 1", N, |with| with.groups[2] = 64),
        outside("128 at place 0", N, |with| with.groups[0] = 128),
        outside("255 at place n - 1", N, |with| with.groups[2] = 255),
        outside("64 at the last place of 64", 64, |with| with.groups[LAST] = 64),
        outside("255 for a lone participant", 1, |with| with.groups[0] = 255),
        outside("64 everywhere", N, |with| with.groups.fill(64)),
        outside("a group and a reserve outside", N, |with| {
            with.groups[1] = 64;
            with.reserves[1] = MOST_RESERVE + 1;
        }),
    ]
}

pub fn with_reserve_outside() -> Vec<Case> {
    let mut cases = Vec::new();
    for (of, group) in [("with members", 0), ("without members", MEMBERLESS), ("63", LAST)] {
        for (what, cents) in [("a cent above the bound", MOST_RESERVE + 1), ("2^64 - 1", u64::MAX)]
        {
            let what = format!("a reserve of {what}, group {of}");
            let change = |with: &mut Making| with.reserves[group] = cents;
            cases.push(case(&what, (N, MARKET), FIELD_OUTSIDE, change));
        }
    }
    let all_in_63 = |with: &mut Making| {
        with.groups.fill(LAST_GROUP);
        with.reserves[LAST] = MOST_RESERVE + 1;
    };
    cases.push(case(
        "all in group 63, its reserve outside",
        (64, MARKET),
        FIELD_OUTSIDE,
        all_in_63,
    ));
    cases
}

/// Refused with 4, alone and with groups and reserves outside their values.
fn with_4(sizes: impl IntoIterator<Item = Size>) -> Vec<Case> {
    let alone: [Outside; 1] = [("groups of one", |_| ())];
    let ways = |size| {
        let case = move |&(what, change): &Outside| case(what, size, N_REFUSED, change);
        alone.iter().chain(&OUTSIDE).map(case)
    };
    sizes.into_iter().flat_map(ways).collect()
}

/// The cases of 02, a, in market books.
pub fn of_groups() -> Vec<Case> {
    let with_4 = with_4(OUTSIDE_N.map(|n| (n, MARKET)));
    [standing(), with_group_outside(), with_reserve_outside(), with_4]
        .into_iter()
        .flatten()
        .collect()
}

/// n at the participant limit, one below it and 1, with each period limit for some of them.
fn standing_in_limits() -> Vec<Case> {
    let mut all = Vec::new();
    for participants in [1, 2, 8, 63, MOST_PARTICIPANTS] {
        for n in [participants, (participants - 1).max(1), 1] {
            all.push((n, limits(participants, 3)));
        }
    }
    all.extend((1..=MOST_PERIODS).map(|periods| (N, limits(8, periods))));
    all.extend([(N, MARKET), (64, MARKET), (1, limits(1, 1)), (1, limits(1, 12))]);
    let mut cases: Vec<Case> =
        all.into_iter().map(|size| case("groups of one", size, ACCEPTED, |_| ())).collect();
    // Groups and reserves have their own values, whatever the limits are.
    cases.push(case("all in group 63", (N, limits(3, 2)), ACCEPTED, |with| {
        with.groups.fill(LAST_GROUP);
        with.reserves = [MOST_RESERVE; GROUPS];
    }));
    cases.push(case("64 from n on", (N, limits(8, 2)), ACCEPTED, |with| {
        with.groups[N as usize..].fill(64);
    }));
    cases
}

/// Each n and limits that are refused with 4.
pub fn refused() -> Vec<Size> {
    let mut all = vec![
        (0, DEMONSTRATION),
        (0, MARKET),
        (2, limits(1, 12)),
        (4, limits(3, 3)),
        (9, DEMONSTRATION),
        (64, DEMONSTRATION),
        (64, limits(63, 12)),
        (65, DEMONSTRATION),
        (65, MARKET),
        (256 + 3, DEMONSTRATION),
        ((1 << 32) + 3, MARKET),
        (u64::MAX, DEMONSTRATION),
        (1, limits(0, 3)),
        (64, limits(0, 12)),
        (0, limits(0, 0)),
        (65, limits(65, 12)),
        (u64::MAX, limits(u64::MAX, u64::MAX)),
    ];
    all.extend(OUTSIDE_PARTICIPANTS.map(|participants| (N, limits(participants, 3))));
    all.extend(OUTSIDE_PERIODS.map(|periods| (N, limits(8, periods))));
    all
}

/// Refused with 3 in books of several limits.
pub fn with_3() -> Vec<Case> {
    let in_book = |size| OUTSIDE.map(|(what, change)| case(what, size, FIELD_OUTSIDE, change));
    [limits(3, 1), DEMONSTRATION, limits(64, 12)]
        .into_iter()
        .flat_map(|of| in_book((N, of)))
        .collect()
}

/// The cases of 02, f.
pub fn of_limits() -> Vec<Case> {
    [standing_in_limits(), with_4(refused()), with_3()].into_iter().flatten().collect()
}

/// Entries that are wrong in every way that a book without periods can tell, with their payout words;
/// month A; and openings of one period more than the market's limit, which show the book's own.
fn tries() -> Vec<u8> {
    let wrong = [
        (Entry::open(1), 0),
        (Entry::open(0), 64),
        (Entry::amount(1, 0, 0, 1, 1), 64),
        (Entry::amount(1, 64, 1, 6, MOST_CENTS + 1), 0),
        (Entry::energy(9, 63, 0, 1, 1), 64),
        (Entry::notice(9), 64),
        (Entry::receipt(9, 63, 1), 64),
        (Entry::settle(9), 64),
        (Entry::purse(0, 1), 0),
        (Entry::purse(64, 0), 64),
        (Entry::purse(63, 1), 64),
        (Entry::purse(0, 5), 64),
        (Entry::washup(9, 9, 63, 0, 1, 2, 3), 64),
        (Entry::washup(9, 8, 64, 2, 1, 2, 3), 64),
    ];
    let openings = (20..=20 + MOST_PERIODS).map(|period| Entry::open(period as u32));
    let right = month_a::entries(7).into_iter().chain(openings).map(|entry| (entry, 64));
    wrong.into_iter().chain(right).flat_map(|(entry, words)| calls::apply(&entry, words)).collect()
}

impl Case {
    /// The book made so by `L`, and the one that `G` makes of the same n, groups and reserves, each take
    /// the place of one with money in it and give way to a market book by `B`; `G` comes right after `L`
    /// too.
    pub fn trial(&self) -> Vec<u8> {
        let (by_l, by_g) =
            (calls::book_of_limits(&self.making), calls::book_in_groups(&self.making));
        let by_b = calls::book(N);
        let entries = month_a::to_settle(7);
        let mut bytes = by_b.clone();
        bytes.extend(entries.iter().flat_map(|entry| calls::apply(entry, N as u8)));
        for book in [&by_l, &by_b, &by_g, &by_b, &by_l, &by_g] {
            bytes.extend(book);
            bytes.extend(tries());
        }
        bytes
    }
}

/// The calls that make a refused book, in each way that there is.
pub fn refused_books() -> Vec<Vec<u8>> {
    let mut books: Vec<Vec<u8>> = [0, 65, 255, u64::MAX].map(calls::book).into();
    let with_4 = with_4([(u64::MAX, MARKET)]);
    for cases in [with_4, with_group_outside(), with_reserve_outside()] {
        books.extend(cases.last().map(|case| calls::book_in_groups(&case.making)));
    }
    let sizes = [(9, DEMONSTRATION), (N, limits(0, 3)), (N, limits(8, 13))];
    books.extend(sizes.map(|(n, limits)| calls::book_of_limits(&Making::within(limits, n))));
    books.extend(with_3().last().map(|case| calls::book_of_limits(&case.making)));
    books
}

#[cfg(test)]
mod tests {
    use super::*;
    use reckoning::rules::book::Book;

    #[test]
    fn each_case_gets_its_answer() {
        for case in of_groups().iter().chain(&of_limits()) {
            assert_eq!(Book::make(&case.making).1, case.answer, "{}", case.name);
        }
    }
}
