//! Purses (02, c): money paid early, and what a settlement draws of it.

use crate::rules::codec::MOST_CENTS;

/// A purse is at most this (else 15).
pub const MOST_PURSE: u128 = MOST_CENTS as u128;

/// A payer as the settle entry of a period finds it.
#[derive(Clone, Copy, Debug)]
pub struct Payer {
    pub purse: u128,
    /// P_i, and what was received of it.
    pub payable: u128,
    pub received: u128,
    /// Whether it has arrears in an older period.
    pub barred: bool,
}

impl Payer {
    pub fn unpaid(&self) -> u128 {
        self.payable - self.received
    }

    /// The cents that are moved in as a receipt.
    pub fn drawn(&self) -> u128 {
        if self.barred {
            0
        } else {
            self.purse.min(self.unpaid())
        }
    }
}
