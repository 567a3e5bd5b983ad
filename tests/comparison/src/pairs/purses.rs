//! Pairs of refusals of purse entries (02, c), whose checks are 4, 5, 3, 12, 15.
//!
//! Pairs that cannot hold at once, and are not here:
//! - 12 with 15: a participant that the book does not have has no purse.
//! - 4 with 15: a refused book has no purses.
//! - 15 with 6 to 11, 13 or 14: a purse entry names no period, and no other kind is tested for 15.

use crate::pairs::{after, pairs_after, Pair, N, NEVER};
use reckoning::rules::codec::{Entry, MOST_CENTS};

/// A purse entry with nonsense in the fields that it lacks.
fn purse(participant: u8, cents: u64) -> Entry {
    let [quantity, old_quantity, price] = [u32::MAX; 3];
    let entry = Entry::purse(participant, cents);
    let entry = Entry { period: NEVER, earlier_period: NEVER, side: 2, tier: 6, ..entry };
    Entry { quantity, old_quantity, price, ..entry }
}

/// The pairs in a book that is made by some calls.
pub fn pairs(scene: &[u8]) -> Vec<Pair> {
    // Participant 2's purse is at its bound, and the others' are empty.
    let before = after(scene, &[Entry::purse(2, MOST_CENTS)], N);
    let past = MOST_CENTS + 1;
    let of_5 = [
        (3, purse(64, 1)),
        (3, purse(0, 0)),
        (3, purse(0, past)),
        (12, purse(3, 1)),
        (12, purse(63, MOST_CENTS)),
        (15, purse(2, 1)),
        (15, purse(2, MOST_CENTS)),
    ];
    let of_3 = [
        (3, 12, purse(64, 1), purse(63, 1)),
        (3, 12, purse(255, MOST_CENTS), purse(63, MOST_CENTS)),
        (3, 12, purse(3, 0), purse(3, 1)),
        (3, 12, purse(3, past), purse(3, MOST_CENTS)),
        (3, 15, purse(2, past), purse(2, MOST_CENTS)),
        (3, 15, purse(2, u64::MAX), purse(2, 1)),
    ];
    let of_4 = [
        (3, purse(64, 1)),
        (3, purse(0, 0)),
        (5, purse(0, 1)),
        (12, purse(3, 1)),
        (12, purse(63, MOST_CENTS)),
    ];
    pairs_after(&before, &of_4, &of_5, &of_3)
}
