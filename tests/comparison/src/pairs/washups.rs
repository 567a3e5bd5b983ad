//! Pairs of refusals of washups (02, e), whose checks are 4, 5, 3, 8, 12, 9, 16, 11.
//!
//! Pairs that cannot hold at once, and are not here:
//! - 4 with 9 and 11: a refused book has no periods.
//! - 8 with 11: a period not in the book has no totals.
//! - 16 with 6, 7, 10 or 13 to 15: no kind is tested for both.

use crate::pairs::{after, pairs_after, Pair, Row, BEFORE, FULL, GONE, N, NEVER, NOTICED, SETTLED};
use reckoning::rules::codec::{Entry, MOST_CENTS};

/// Before its notice; side 1 is at its bound, side 0 has nothing. With BEFORE it is the other way.
const SIDE_1_FULL: u32 = 40;

/// A washup by 23 cents with nonsense in the fields that it lacks.
fn washup(period: u32, earlier: u32, participant: u8, side: u8, up: bool) -> Entry {
    let (old, new) = if up { (1, 2) } else { (2, 1) };
    let entry = Entry::washup(period, earlier, participant, side, old, new, 20_000);
    Entry { tier: 6, cents: u64::MAX, ..entry }
}

/// Up on side 1 of the period before its notice, which has room there.
fn fits(earlier: u32, participant: u8) -> Entry {
    washup(BEFORE, earlier, participant, 1, true)
}

/// The side is outside its values.
fn outside(entry: Entry) -> Entry {
    Entry { side: 2, ..entry }
}

/// Washups that pass the bound of the side to which they go, whose earlier period stands.
fn past_bound() -> [Entry; 4] {
    [
        washup(BEFORE, 3, 2, 0, true),
        washup(BEFORE, 0, 2, 1, false),
        washup(SIDE_1_FULL, 39, 2, 1, true),
        washup(SIDE_1_FULL, 16, 2, 0, false),
    ]
}

/// Every refusal after 5.
fn rows_of_5() -> Vec<(u8, Entry)> {
    let mut rows = vec![
        (3, outside(fits(3, 0))),
        (8, washup(NEVER, 76, 0, 0, true)),
        (12, fits(3, 3)),
        (9, washup(NOTICED, 2, 0, 0, true)),
        (16, fits(BEFORE, 0)),
        (16, fits(u32::MAX, 0)),
    ];
    rows.extend(past_bound().map(|entry| (11, entry)));
    rows
}

/// 3, by each field that has values, with every refusal after it.
fn rows_of_3() -> Vec<Row> {
    let (kwh, price) = (100_000_001, 10_000_001);
    let gone = washup(GONE, 0, 0, 0, true);
    let noticed = washup(NOTICED, 2, 0, 0, true);
    let itself = fits(BEFORE, 0);
    let mut rows = vec![
        (3, 8, outside(gone), gone),
        (3, 12, fits(3, 64), fits(3, 63)),
        (3, 12, Entry { quantity: kwh, ..fits(3, 3) }, fits(3, 3)),
        (3, 9, Entry { old_quantity: kwh, ..noticed }, noticed),
        (3, 16, Entry { old_quantity: kwh, ..itself }, itself),
        (3, 16, Entry { quantity: u32::MAX, ..itself }, itself),
        (3, 16, Entry { price, ..itself }, itself),
        (3, 16, outside(itself), itself),
    ];
    rows.extend(past_bound().map(|entry| (3, 11, Entry { price, ..entry }, entry)));
    rows
}

/// 8, 12, 9, 16 and 11, in this order.
fn rows_of_the_operator() -> Vec<Row> {
    let itself = |entry: Entry| Entry { earlier_period: entry.period, ..entry };
    let never = washup(NEVER, 76, 3, 1, true);
    let noticed = |participant| washup(NOTICED, 2, participant, 0, true);
    let settled = washup(SETTLED, 1, 0, 1, false);
    let full = washup(FULL, 4, 0, 0, true);
    let mut rows = vec![
        (8, 12, never, fits(3, 3)),
        (8, 9, washup(GONE, 0, 0, 0, true), settled),
        (8, 16, itself(washup(NEVER, 0, 0, 0, true)), fits(BEFORE, 0)),
        (8, 16, washup(GONE, u32::MAX, 0, 0, true), fits(u32::MAX, 0)),
        (12, 9, noticed(3), noticed(2)),
        (12, 9, Entry { participant: 63, ..settled }, settled),
        (12, 16, fits(BEFORE, 3), fits(BEFORE, 2)),
        (12, 16, fits(5, 63), fits(5, 2)),
        (9, 16, itself(noticed(0)), fits(BEFORE, 0)),
        (9, 16, Entry { earlier_period: 3, ..settled }, fits(5, 0)),
        (9, 11, full, past_bound()[0]),
        (9, 11, Entry { side: 1, ..full }, past_bound()[2]),
    ];
    for entry in past_bound() {
        rows.push((12, 11, Entry { participant: 3, ..entry }, entry));
        for earlier_period in [entry.period, entry.period + 1, u32::MAX] {
            rows.push((16, 11, Entry { earlier_period, ..entry }, entry));
        }
    }
    let far_below = Entry { earlier_period: SIDE_1_FULL - 25, ..past_bound()[2] };
    rows.push((16, 11, far_below, past_bound()[2]));
    rows
}

/// The pairs in a book that is made by some calls.
pub fn pairs(scene: &[u8]) -> Vec<Pair> {
    let full = [Entry::open(SIDE_1_FULL), Entry::amount(SIDE_1_FULL, 1, 1, 5, MOST_CENTS)];
    let before = after(scene, &full, N);
    let of_4 = [
        (3, outside(fits(3, 0))),
        (5, fits(3, 0)),
        (8, washup(NEVER, 76, 0, 0, true)),
        (12, fits(3, 63)),
        (16, fits(BEFORE, 0)),
    ];
    let others = [rows_of_3(), rows_of_the_operator()].concat();
    pairs_after(&before, &of_4, &rows_of_5(), &others)
}
