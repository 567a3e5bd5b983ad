//! Pairs of refusals of reading, which checks 1 (no byte), 2, 1, 3, and of writing, which checks 3,
//! 5.

use crate::pairs::Pair;
use reckoning::programs::calls;
use reckoning::rules::codec::{Entry, LAST_KIND};

fn reading(earlier: u8, later: u8, both: &[u8], alone: &[u8]) -> Pair {
    let (both, alone) = (calls::read(0, both), calls::read(0, alone));
    Pair { of: "reading", earlier, later, both, alone }
}

/// An entry with a field outside its values, and the same with the field inside.
fn outside_and_inside() -> [(Entry, Entry); 6] {
    let washup = |side, old, new| Entry::washup(2, 1, 0, side, old, new, 1);
    [
        (Entry::amount(1, 0, 1, 6, 1), Entry::amount(1, 0, 1, 5, 1)),
        (Entry::purse(64, 1), Entry::purse(63, 1)),
        (Entry::purse(0, 0), Entry::purse(0, 1)),
        (washup(2, 1, 1), washup(1, 1, 1)),
        (washup(0, 100_000_001, 1), washup(0, 100_000_000, 1)),
        (washup(0, 1, 100_000_001), washup(0, 1, 100_000_000)),
    ]
}

pub fn pairs() -> Vec<Pair> {
    let unknown = [0, LAST_KIND + 1, 255];
    let mut pairs: Vec<Pair> = unknown.iter().map(|&kind| reading(2, 1, &[kind], &[1])).collect();
    for (outside, inside) in outside_and_inside() {
        let bytes = outside.bytes();
        let cut = bytes.len() - 1;
        pairs.push(reading(1, 3, &bytes[..cut], &bytes));
        let (both, alone) = (calls::write(&outside, cut as u8), calls::write(&inside, cut as u8));
        pairs.push(Pair { of: "writing", earlier: 3, later: 5, both, alone });
    }
    pairs
}
