//! Pairs of refusals whose conditions hold at once, one trial for each. The
//! earlier one in 01's order must win. Beside each call in which both hold
//! stands one in which only the later does, and which it must answer.
//!
//! Pairs that cannot hold at once, and are not here:
//! - 1 (no byte) with any other, 2 with 3: there is nothing to look at.
//! - 4 with 7, 9, 10, 11, 13, 14: a refused book has no periods.
//! - 9 with 10: once the notice was accepted the sides stay equal.
//! - 12 with 14: only a participant below n can have arrears.
//! - 6 and 7 with 8 to 14, and 10, 11, 13 or 14 with one of another kind:
//!   no kind is tested for both; 3 does not hold for kinds 1, 4 and 6.
//! - 8 with 10 and 11: a period not in the book has no totals.
//!
//! Those of reading and writing, of purse entries, of washups and of makings have files of their own.

mod bytes;
mod makings;
mod purses;
#[cfg(test)]
mod tests;
mod washups;

use crate::generate::makings::refused_books;
use reckoning::programs::calls;
use reckoning::rules::codec::{
    Entry, AMOUNT, ENERGY, MOST_CENTS, NOTICE, OPEN, PURSE, RECEIPT, SETTLE,
};
use reckoning::rules::month_a;

/// The pairs covered: an earlier refusal, and each later one that it is put with,
/// some of them for several kinds of entry.
pub const COVERED: [(u8, &[u8]); 12] = [
    // Reading.
    (2, &[1]),
    (1, &[3]),
    // Writing.
    (3, &[5]),
    // The book; 4 with 3 also where it is made.
    (4, &[3, 5, 6, 8, 12, 16]),
    (5, &[3, 6, 7, 8, 9, 10, 11, 12, 13, 14, 15, 16]),
    (3, &[8, 9, 11, 12, 13, 14, 15, 16]),
    (6, &[7]),
    (8, &[9, 12, 13, 14, 16]),
    (12, &[9, 11, 13, 16]),
    (9, &[11, 13, 14, 16]),
    (16, &[11]),
    (14, &[13]),
];

pub struct Pair {
    pub of: &'static str,
    pub earlier: u8,
    pub later: u8,
    /// Calls of which the last meets both conditions.
    pub both: Vec<u8>,
    /// Calls of which the last meets only the later condition.
    pub alone: Vec<u8>,
}

const N: u8 = 3;

/// The period in which payer 0 has arrears after settlement.
const SETTLED: u32 = 2;
/// Month A after its notice.
const NOTICED: u32 = 3;
/// Before its notice; side 0 is at its bound, side 1 has nothing.
const BEFORE: u32 = 4;
/// After its notice; both sides are at their bound.
const FULL: u32 = 5;
/// Settled after period SETTLED, with arrears of payer 0 too.
const SETTLED_LATER: u32 = 6;
/// A period that left the book.
const GONE: u32 = 1;
/// A period never opened.
const NEVER: u32 = 77;

/// The book that the pairs are built on, with n = 3.
fn scene() -> Vec<u8> {
    let mut entries = vec![Entry::open(GONE), Entry::notice(GONE), Entry::settle(GONE)];
    entries.extend(month_a::to_settle(SETTLED));
    entries.extend(month_a::to_notice(NOTICED));
    entries.push(Entry::open(BEFORE));
    entries.push(Entry::amount(BEFORE, 0, 0, 0, MOST_CENTS));
    entries.push(Entry::open(FULL));
    entries.push(Entry::amount(FULL, 2, 0, 0, MOST_CENTS));
    entries.push(Entry::amount(FULL, 1, 1, 5, MOST_CENTS));
    entries.push(Entry::notice(FULL));
    entries.extend(month_a::to_notice(SETTLED_LATER));
    entries.push(Entry::settle(SETTLED_LATER));
    after(&calls::book(N.into()), &entries, N)
}

/// The same with twelve periods in the book; the highest is 13.
fn scene_of_twelve() -> Vec<u8> {
    let openings: Vec<Entry> = (SETTLED_LATER + 1..=SETTLED_LATER + 7).map(Entry::open).collect();
    after(&scene(), &openings, N)
}

/// Some calls, and entries with so many payout words.
fn after(before: &[u8], entries: &[Entry], words: u8) -> Vec<u8> {
    let calls = entries.iter().flat_map(|entry| calls::apply(entry, words));
    before.iter().copied().chain(calls).collect()
}

/// The sort of an entry; a receipt in a settled period is late.
fn sort(entry: Entry) -> &'static str {
    match entry.kind {
        OPEN => "open",
        ENERGY => "energy",
        AMOUNT => "amount",
        NOTICE => "notice",
        RECEIPT if [SETTLED, SETTLED_LATER].contains(&entry.period) => "late receipt",
        RECEIPT => "receipt",
        SETTLE => "settle",
        PURSE => "purse",
        _ => "washup",
    }
}

/// The two refusals, the entry with both conditions and the entry with the later alone.
type Row = (u8, u8, Entry, Entry);

/// The pairs in a book that some calls leave: 4 and 5 with each refusal that comes after them, on the
/// same entry, and others. 4 is by every refused book, and 5 by one payout word too few.
fn pairs_after(
    before: &[u8],
    of_4: &[(u8, Entry)],
    of_5: &[(u8, Entry)],
    others: &[Row],
) -> Vec<Pair> {
    let mut pairs = Vec::new();
    let mut add = |earlier, later, entry, both, alone| {
        pairs.push(Pair { of: sort(entry), earlier, later, both, alone });
    };
    for &(later, entry) in of_4 {
        // Where 5 is the later, no payout word is lent.
        let words = if later == 5 { 0 } else { N };
        for book in refused_books() {
            add(4, later, entry, after(&book, &[entry], words), after(before, &[entry], words));
        }
    }
    for &(later, entry) in of_5 {
        add(5, later, entry, after(before, &[entry], N - 1), after(before, &[entry], N));
    }
    for &(earlier, later, both, alone) in others {
        add(earlier, later, both, after(before, &[both], N), after(before, &[alone], N));
    }
    pairs
}

fn energy(period: u32, participant: u8, side: u8) -> Entry {
    Entry::energy(period, participant, side, 100, 100)
}

fn by(period: u32, participant: u8, cents: u64) -> Entry {
    Entry::amount(period, participant, 0, 0, cents)
}

/// Every refusal after 5.
fn rows_of_5() -> [(u8, Entry); 25] {
    [
        (3, energy(BEFORE, 0, 2)),
        (3, by(BEFORE, 0, 0)),
        (3, Entry::receipt(NOTICED, 64, 1)),
        (6, Entry::open(SETTLED_LATER)),
        (8, energy(NEVER, 0, 0)),
        (8, by(NEVER, 0, 1)),
        (8, Entry::notice(NEVER)),
        (8, Entry::receipt(NEVER, 0, 1)),
        (8, Entry::settle(NEVER)),
        (12, energy(BEFORE, 3, 1)),
        (12, by(BEFORE, 3, 1)),
        (12, Entry::receipt(NOTICED, 3, 1)),
        (9, energy(NOTICED, 0, 0)),
        (9, by(NOTICED, 0, 1)),
        (9, Entry::notice(NOTICED)),
        (9, Entry::receipt(BEFORE, 2, 1)),
        (9, Entry::settle(BEFORE)),
        (9, Entry::settle(SETTLED)),
        (11, energy(BEFORE, 0, 0)),
        (11, by(BEFORE, 0, 1)),
        (10, Entry::notice(BEFORE)),
        (14, Entry::receipt(NOTICED, 0, 1)),
        (14, Entry::receipt(SETTLED_LATER, 0, 1)),
        (13, Entry::receipt(NOTICED, 2, 335)),
        (13, Entry::receipt(SETTLED, 0, 301)),
    ]
}

/// 3 with every refusal after it.
fn rows_of_3() -> Vec<Row> {
    let past = MOST_CENTS + 1;
    let dear = Entry::energy(BEFORE, 0, 0, 100_000_001, 10_000_000);
    vec![
        (3, 8, energy(NEVER, 0, 2), energy(NEVER, 0, 1)),
        (3, 8, by(NEVER, 0, 0), by(NEVER, 0, 1)),
        (3, 8, Entry::receipt(NEVER, 0, 0), Entry::receipt(NEVER, 0, 1)),
        (3, 12, energy(BEFORE, 64, 1), energy(BEFORE, 63, 1)),
        (3, 12, by(BEFORE, 255, 1), by(BEFORE, 63, 1)),
        (3, 12, Entry::amount(BEFORE, 3, 1, 6, 1), Entry::amount(BEFORE, 3, 1, 5, 1)),
        (3, 12, Entry::receipt(NOTICED, 64, 1), Entry::receipt(NOTICED, 63, 1)),
        (3, 9, energy(NOTICED, 0, 2), energy(NOTICED, 0, 1)),
        (3, 9, Entry::amount(NOTICED, 0, 0, 1, 1), by(NOTICED, 0, 1)),
        (3, 9, Entry::receipt(BEFORE, 2, 0), Entry::receipt(BEFORE, 2, 1)),
        (3, 11, dear, energy(BEFORE, 0, 0)),
        (3, 11, by(BEFORE, 0, past), by(BEFORE, 0, 1)),
        (3, 14, Entry::receipt(NOTICED, 0, 0), Entry::receipt(NOTICED, 0, 1)),
        (3, 14, Entry::receipt(SETTLED_LATER, 0, 0), Entry::receipt(SETTLED_LATER, 0, 1)),
        (3, 13, Entry::receipt(NOTICED, 2, past), Entry::receipt(NOTICED, 2, MOST_CENTS)),
        (3, 13, Entry::receipt(SETTLED, 0, past), Entry::receipt(SETTLED, 0, 301)),
    ]
}

/// 8, 12, 9 and 14 with every refusal after them.
fn rows_of_the_operator_and_payer() -> Vec<Row> {
    vec![
        (8, 12, energy(NEVER, 3, 1), energy(BEFORE, 3, 1)),
        (8, 12, by(NEVER, 63, 1), by(BEFORE, 63, 1)),
        (8, 12, Entry::receipt(NEVER, 3, 1), Entry::receipt(NOTICED, 3, 1)),
        (8, 9, energy(GONE, 0, 1), energy(SETTLED, 0, 1)),
        (8, 9, by(GONE, 0, 1), by(SETTLED, 0, 1)),
        (8, 9, Entry::notice(GONE), Entry::notice(SETTLED)),
        (8, 9, Entry::settle(GONE), Entry::settle(SETTLED)),
        (8, 14, Entry::receipt(NEVER, 0, 1), Entry::receipt(NOTICED, 0, 1)),
        (8, 13, Entry::receipt(GONE, 2, 1), Entry::receipt(SETTLED, 2, 1)),
        (12, 9, energy(NOTICED, 3, 0), energy(NOTICED, 2, 0)),
        (12, 9, by(SETTLED, 63, 1), by(SETTLED, 2, 1)),
        (12, 9, Entry::receipt(BEFORE, 3, 1), Entry::receipt(BEFORE, 2, 1)),
        (12, 11, energy(BEFORE, 3, 0), energy(BEFORE, 2, 0)),
        (12, 11, by(BEFORE, 3, 1), by(BEFORE, 2, 1)),
        (12, 13, Entry::receipt(NOTICED, 3, 335), Entry::receipt(NOTICED, 2, 335)),
        (12, 13, Entry::receipt(SETTLED, 3, 301), Entry::receipt(SETTLED, 0, 301)),
        (9, 11, energy(FULL, 0, 1), energy(BEFORE, 0, 0)),
        (9, 11, by(FULL, 0, 1), by(BEFORE, 0, 1)),
        (9, 14, Entry::receipt(BEFORE, 0, 1), Entry::receipt(NOTICED, 0, 1)),
        (9, 13, Entry::receipt(BEFORE, 2, 335), Entry::receipt(NOTICED, 2, 335)),
        (14, 13, Entry::receipt(NOTICED, 0, 601), Entry::receipt(NOTICED, 2, 335)),
        (14, 13, Entry::receipt(SETTLED_LATER, 0, 601), Entry::receipt(SETTLED, 0, 301)),
    ]
}

/// Every refusal after 4 whose condition a book without participants can meet.
fn rows_of_4() -> [(u8, Entry); 10] {
    [
        (3, energy(BEFORE, 0, 2)),
        (3, by(BEFORE, 0, 0)),
        (3, Entry::receipt(NOTICED, 64, 1)),
        (5, Entry::open(14)),
        (5, by(BEFORE, 0, 1)),
        (6, Entry::open(0)),
        (8, Entry::notice(NEVER)),
        (8, Entry::settle(NEVER)),
        (12, by(BEFORE, 3, 1)),
        (12, Entry::receipt(NOTICED, 63, 1)),
    ]
}

/// 5 with 7, and 6 with 7.
fn pairs_of_twelve_periods() -> Vec<Pair> {
    let [of_0, of_13, of_14, last] = [0, 13, 14, u32::MAX].map(Entry::open);
    pairs_after(&scene_of_twelve(), &[], &[(7, of_14)], &[(6, 7, of_13, of_14), (6, 7, of_0, last)])
}

/// Every pair, with its calls.
pub fn pairs() -> Vec<Pair> {
    let scene = scene();
    let others = [rows_of_3(), rows_of_the_operator_and_payer()].concat();
    let all = [
        bytes::pairs(),
        pairs_after(&scene, &rows_of_4(), &rows_of_5(), &others),
        pairs_of_twelve_periods(),
        purses::pairs(&scene),
        washups::pairs(&scene),
        makings::pairs_in_groups(),
        makings::pairs_in_limits(),
        makings::pairs_of_openings(),
    ];
    all.into_iter().flatten().collect()
}
