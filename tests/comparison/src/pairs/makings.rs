//! Pairs of refusals of makings (02, a and f), which check 4 and then 3, and of openings, which check 5, 6
//! and then 7, at each period limit.

use crate::generate::makings::{refused, with_3, with_group_outside, with_reserve_outside, Case};
use crate::pairs::{after, pairs_after, Pair, N};
use reckoning::programs::calls;
use reckoning::rules::codec::Entry;
use reckoning::rules::limits::{Limits, MOST_PERIODS};
use reckoning::rules::making::Making;

/// A group or a reserve outside with each refused n; alone are the group or the reserve.
pub fn pairs_in_groups() -> Vec<Pair> {
    let mut pairs = Vec::new();
    for case in [with_group_outside(), with_reserve_outside()].into_iter().flatten() {
        for n in [0, 65, 259, u64::MAX] {
            let both = calls::book_in_groups(&Making { n, ..case.making.clone() });
            let alone = calls::book_in_groups(&case.making);
            pairs.push(Pair { of: "making", earlier: 4, later: 3, both, alone });
        }
    }
    pairs
}

/// Each n or limit outside with a group or a reserve outside; alone are the group or the reserve.
pub fn pairs_in_limits() -> Vec<Pair> {
    let outside = with_3();
    let with_a_case = refused().into_iter().zip(outside.iter().cycle());
    let pair = |((n, limits), case): ((u64, Limits), &Case)| {
        let both = calls::book_of_limits(&Making { n, limits, ..case.making.clone() });
        let alone = calls::book_of_limits(&case.making);
        Pair { of: "making of limits", earlier: 4, later: 3, both, alone }
    };
    with_a_case.map(pair).collect()
}

/// A book with periods 1 to its limit in it.
fn full(periods: u64) -> Vec<u8> {
    let limits = Limits { participants: 8, periods };
    let openings: Vec<Entry> = (1..=periods as u32).map(Entry::open).collect();
    after(&calls::book_of_limits(&Making::within(limits, N.into())), &openings, N)
}

pub fn pairs_of_openings() -> Vec<Pair> {
    let in_book = |periods: u64| {
        let full = full(periods);
        let [of_0, of_1, highest, next, last] =
            [0, 1, periods as u32, periods as u32 + 1, u32::MAX].map(Entry::open);
        let of_6 = [(6, 7, highest, next), (6, 7, of_1, next), (6, 7, of_0, last)];
        let mut pairs = pairs_after(&full, &[], &[(7, next)], &of_6);
        let [both, alone] = [0, N].map(|words| after(&full, &[last], words));
        pairs.push(Pair { of: "open", earlier: 5, later: 7, both, alone });
        pairs
    };
    let pairs = (1..=MOST_PERIODS).flat_map(in_book);
    pairs.map(|pair| Pair { of: "open at a limit", ..pair }).collect()
}
