//! What a book is made with: n, a group number for each participant and a GST reserve for each
//! group (02, a), and its limits (02, f).

use crate::rules::codec::MOST_CENTS;
use crate::rules::limits::{Limits, MARKET, MOST_PARTICIPANTS};
use crate::rules::refusals::{FIELD_OUTSIDE, N_REFUSED};
use std::array;

/// Both come as so many values.
pub const GROUPS: usize = MOST_PARTICIPANTS as usize;
pub const LAST_GROUP: u8 = 63;
/// The largest GST reserve.
pub const MOST_RESERVE: u64 = MOST_CENTS;

#[derive(Clone, Debug, PartialEq, Eq)]
pub struct Making {
    pub n: u64,
    /// By participant; the number of a participant n or above is not looked at.
    pub groups: [u8; GROUPS],
    /// By group, in cents.
    pub reserves: [u64; GROUPS],
    pub limits: Limits,
}

impl Making {
    /// Participant i in group i, no reserves and the market's limits, as the listing makes a book.
    pub fn alone(n: u64) -> Making {
        Making::within(MARKET, n)
    }

    /// The same, of other limits.
    pub fn within(limits: Limits, n: u64) -> Making {
        Making { n, groups: array::from_fn(|i| i as u8), reserves: [0; GROUPS], limits }
    }

    /// The group numbers of the participants that there are; n is not above the market's limit.
    pub fn numbers(&self) -> &[u8] {
        &self.groups[..self.n as usize]
    }

    /// The refusal that a book made so gets, if any: 4 before 3.
    pub fn refusal(&self) -> Option<u8> {
        if !self.limits.take(self.n) {
            return Some(N_REFUSED);
        }
        let numbers_stand = self.numbers().iter().all(|&group| group <= LAST_GROUP);
        let reserves_stand = self.reserves.iter().all(|&cents| cents <= MOST_RESERVE);
        (!numbers_stand || !reserves_stand).then_some(FIELD_OUTSIDE)
    }
}
