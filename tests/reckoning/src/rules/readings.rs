//! How the book reads the sentences that a wrong version misreads. The right book has `RIGHT`; a wrong
//! version, by which tests show that they can fail, has another function in a place or two.

use crate::rules::addition::{added, Addition};
use crate::rules::book::Book;
use crate::rules::codec::Entry;
use crate::rules::month::{self, Rounds, Sums};
use crate::rules::retention::retention;
use crate::rules::sharing::{self, Shares};
use crate::rules::washup;

#[derive(Clone, Copy, Debug)]
pub struct Readings {
    /// Whether a further opening is 7.
    pub full: fn(&Book) -> bool,
    /// Whether the earlier period of a washup stands (else 16).
    pub earlier_stands: fn(&Book, &Entry) -> bool,
    /// Whether money for a purse is 15.
    pub purse_passes: fn(&Book, &Entry) -> bool,
    /// What an entry adds to its month's sums, if anything, and what 11 tests.
    pub added: fn(&Entry) -> Option<Addition>,
    pub tested: fn(&Entry) -> Option<Addition>,
    /// A of a month.
    pub retention: fn(&Book, &Sums) -> Vec<u128>,
    /// What each payer has drawn when a noticed period settles.
    pub drawn: fn(&Book, u32) -> Vec<u128>,
    /// The revised amounts V of step 2, and the rounds of step 4.
    pub revised: Shares,
    pub rounds: Rounds,
    /// What late money pays.
    pub late: Shares,
    /// The cents held in the book.
    pub held: fn(&Book) -> u128,
}

/// The readings of the rules.
pub const RIGHT: Readings = Readings {
    full: Book::is_full,
    earlier_stands: |_, entry| washup::earlier_stands(entry),
    purse_passes: Book::purse_passes,
    added,
    tested: added,
    retention: |book, sums| retention(sums, &book.making),
    drawn: Book::drawn,
    revised: sharing::shares,
    rounds: month::rounds,
    late: month::late_payments,
    held: Book::all_held,
};
