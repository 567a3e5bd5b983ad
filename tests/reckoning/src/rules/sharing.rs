//! Tiers met in order with some money, and the one that is shared: the first that is not met in full.
//! Each share of it is rounded down, and the leftover cents go one each to the largest remainders of
//! the division, equal ones to the lower participant number (02, g). Step 2 of the settlement takes
//! it over amounts owing, late money over shortages.

use crate::rules::month::TIERS;
use std::cmp::Reverse;

/// Gives what each participant gets of some money, from what it is to get in each tier.
pub type Shares = fn(&[[u128; TIERS]], u128) -> Vec<u128>;

/// A tier that the money left for it does not meet.
#[derive(Clone, Debug)]
pub struct Shared {
    /// The tier's place, one below its number.
    pub tier: usize,
    /// What each participant would get if the tier were met.
    pub wanted: Vec<u128>,
    /// What is left for the tier.
    pub money: u128,
}

impl Shared {
    /// The divisor of every share.
    pub fn total(&self) -> u128 {
        self.wanted.iter().sum()
    }

    pub fn rounded_down(&self) -> Vec<u128> {
        let total = self.total();
        self.wanted.iter().map(|cents| cents * self.money / total).collect()
    }

    pub fn remainders(&self) -> Vec<u128> {
        let total = self.total();
        self.wanted.iter().map(|cents| cents * self.money % total).collect()
    }

    /// The cents that the shares leave when all are rounded down.
    pub fn leftover(&self) -> usize {
        self.left_by(&self.rounded_down())
    }

    fn left_by(&self, shares: &[u128]) -> usize {
        (self.money - shares.iter().sum::<u128>()) as usize
    }

    /// The participants by their remainders, the largest first, and equal ones by their numbers.
    pub fn by_remainder(&self) -> Vec<usize> {
        let remainders = self.remainders();
        let mut participants: Vec<usize> = (0..self.wanted.len()).collect();
        participants.sort_by_key(|&i| (Reverse(remainders[i]), i));
        participants
    }

    /// The shares rounded down, and one leftover cent to each of the first of some participants.
    pub fn with_cents_to(&self, first: &[usize]) -> Vec<u128> {
        let mut shares = self.rounded_down();
        let leftover = self.left_by(&shares);
        first.iter().take(leftover).for_each(|&i| shares[i] += 1);
        shares
    }

    pub fn shares(&self) -> Vec<u128> {
        self.with_cents_to(&self.by_remainder())
    }
}

/// What each participant gets of the tiers that are met, and the tier that is shared, if there is one.
pub fn met(wanted: &[[u128; TIERS]], money: u128) -> (Vec<u128>, Option<Shared>) {
    let mut all = vec![0; wanted.len()];
    let mut left = money;
    for tier in 0..TIERS {
        let of_tier: Vec<u128> = wanted.iter().map(|tiers| tiers[tier]).collect();
        let total: u128 = of_tier.iter().sum();
        if left < total {
            return (all, Some(Shared { tier, wanted: of_tier, money: left }));
        }
        add(&mut all, &of_tier);
        left -= total;
    }
    (all, None)
}

pub fn add(to: &mut [u128], more: &[u128]) {
    to.iter_mut().zip(more).for_each(|(to, more)| *to += more);
}

/// What each participant gets. Tiers after the one that is shared get nothing.
pub fn shares(wanted: &[[u128; TIERS]], money: u128) -> Vec<u128> {
    let (mut all, shared) = met(wanted, money);
    if let Some(shared) = shared {
        add(&mut all, &shared.shares());
    }
    all
}

#[cfg(test)]
mod tests {
    use super::*;

    fn shared(wanted: &[u128], money: u128) -> Vec<u128> {
        Shared { tier: 0, wanted: wanted.to_vec(), money }.shares()
    }

    /// 466 2/3 and 133 1/3; 77 2/3 and 22 1/3; 4/9 and 5/9.
    #[test]
    fn a_leftover_cent_goes_to_the_largest_remainder() {
        assert_eq!(shared(&[0, 700, 200], 600), [0, 467, 133]);
        assert_eq!(shared(&[0, 233, 67], 100), [0, 78, 22]);
        assert_eq!(shared(&[4, 5], 1), [0, 1]);
    }

    /// 2/3, 1/3 and 3/4 each. One of the four equals gets no cent, the one of the highest number.
    #[test]
    fn equal_remainders_go_by_the_lower_number() {
        assert_eq!(shared(&[1, 1, 1], 2), [1, 1, 0]);
        assert_eq!(shared(&[1, 1, 1], 1), [1, 0, 0]);
        assert_eq!(shared(&[0, 5, 0, 5, 5, 5], 15), [0, 4, 0, 4, 4, 3]);
    }

    /// 1/2 and 1 1/2, in both orders. Then 1 1/8, 1 7/8, 2 5/8, 1 7/8 and 1/2: the leftover three go to
    /// the two of 7/8 and to the one of 5/8. Then 1 3/8, 2 3/4, 1 3/8 and 1 1/2: two go to those of 3/4
    /// and 1/2, and none to those of 3/8.
    #[test]
    fn what_is_wanted_does_not_count_beside_the_remainder() {
        assert_eq!(shared(&[1, 3], 2), [1, 1]);
        assert_eq!(shared(&[3, 1], 2), [2, 0]);
        assert_eq!(shared(&[9, 15, 21, 15, 4], 8), [1, 2, 3, 2, 0]);
        assert_eq!(shared(&[11, 22, 11, 12], 7), [1, 3, 1, 2]);
    }

    /// 1/2, 1/2, 1 and 1: the last two have no remainder.
    #[test]
    fn a_share_without_a_remainder_gets_no_cent() {
        assert_eq!(shared(&[1, 1, 2, 2], 3), [1, 0, 1, 1]);
        assert_eq!(shared(&[2, 2, 1, 1], 3), [1, 1, 1, 0]);
    }

    /// As many leftover cents as there are remainders, but for one.
    #[test]
    fn the_most_leftover_cents() {
        assert_eq!(shared(&[1; 8], 7), [1, 1, 1, 1, 1, 1, 1, 0]);
        let mut of_64 = [1; 64];
        of_64[63] = 0;
        assert_eq!(shared(&[1; 64], 63), of_64);
    }

    /// 4,999,999,999,999 1/2 and 1/2. Of three wanted that differ by a cent, the remainder of one cent
    /// is the cents wanted, that of two is twice as much, and that of all but one is the total less
    /// the cents wanted.
    #[test]
    fn remainders_of_large_products_are_exact() {
        let most = 10_000_000_000_000;
        assert_eq!(shared(&[most - 1, 1], most / 2), [most / 2, 0]);
        assert_eq!(shared(&[1, most - 1], most / 2), [1, most / 2 - 1]);
        let third = 3_333_333_333_333;
        assert_eq!(shared(&[third, third, third + 1], 1), [0, 0, 1]);
        assert_eq!(shared(&[third, third + 1, third], 2), [1, 1, 0]);
        assert_eq!(shared(&[third + 1, third, third], most - 1), [third, third, third]);
    }

    /// Tier 1 is met, tier 2 is empty, and tier 3 is shared: 2 1/3 each. Later tiers get nothing, though
    /// a cent would meet tier 4.
    #[test]
    fn tiers_before_the_shared_one_are_met_and_later_ones_get_nothing() {
        let wanted = [[2, 0, 4, 1, 9], [0, 0, 4, 0, 9], [3, 0, 4, 0, 0]];
        assert_eq!(shares(&wanted, 5 + 7), [2 + 3, 2, 3 + 2]);
        assert_eq!(shares(&wanted, 5 + 12), [2 + 4, 4, 3 + 4]);
        assert_eq!(shares(&wanted, 5 + 12 + 1), [2 + 4 + 1, 4, 3 + 4]);
        assert_eq!(shares(&wanted, 5), [2, 0, 3]);
        assert_eq!(shares(&wanted, 36), [16, 13, 7]);
    }
}
