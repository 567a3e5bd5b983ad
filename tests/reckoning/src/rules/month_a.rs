//! Month A of 01, n = 3, as entries.

use crate::rules::codec::Entry;

/// Its amounts in the order given, and the notice.
pub fn to_notice(period: u32) -> Vec<Entry> {
    vec![
        Entry::open(period),
        Entry::amount(period, 0, 0, 0, 600),
        Entry::amount(period, 2, 0, 0, 400),
        Entry::amount(period, 1, 1, 1, 100),
        Entry::amount(period, 1, 1, 5, 700),
        Entry::amount(period, 2, 1, 5, 200),
        Entry::notice(period),
    ]
}

/// To its settle entry, which leaves arrears of payer 0.
pub fn to_settle(period: u32) -> Vec<Entry> {
    let mut entries = to_notice(period);
    entries.push(Entry::receipt(period, 0, 300));
    entries.push(Entry::receipt(period, 2, 334));
    entries.push(Entry::settle(period));
    entries
}

/// With its two late receipts.
pub fn entries(period: u32) -> Vec<Entry> {
    let mut entries = to_settle(period);
    entries.push(Entry::receipt(period, 0, 100));
    entries.push(Entry::receipt(period, 0, 200));
    entries
}

/// The feed of period 7, late receipts among it.
pub fn feed() -> Vec<u8> {
    let entries = entries(7);
    [3].into_iter().chain(entries.iter().flat_map(Entry::bytes)).collect()
}
