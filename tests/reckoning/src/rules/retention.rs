//! Retention over groups (02, a).

use crate::rules::making::{Making, GROUPS};
use crate::rules::month::Sums;

/// Whether a participant is in a group.
pub fn is_member(making: &Making, i: usize, group: usize) -> bool {
    usize::from(making.groups[i]) == group
}

/// The group's sum of B − O, which can be below 0.
pub fn group_sum(sums: &Sums, making: &Making, group: usize) -> i128 {
    let members = (0..sums.n()).filter(|&i| is_member(making, i, group));
    members.map(|i| sums.owing_by(i) as i128 - sums.owing_to(i) as i128).sum()
}

/// s: the group's sum of B − O and its reserve where that sum is positive, else 0.
pub fn s_of(sums: &Sums, making: &Making, group: usize) -> u128 {
    match group_sum(sums, making, group) {
        sum if sum > 0 => sum.unsigned_abs() + u128::from(making.reserves[group]),
        _ => 0,
    }
}

/// g: the sum of G outside the group.
pub fn g_of(sums: &Sums, making: &Making, group: usize) -> u128 {
    let outside = (0..sums.n()).filter(|&i| !is_member(making, i, group));
    outside.map(|i| sums.tier_5(i)).sum()
}

/// What a group gives i, from G_i and the group's s and g.
pub fn gift(tier_5: u128, s: u128, g: u128) -> u128 {
    if g == 0 || s == 0 {
        0
    } else if s >= g {
        tier_5
    } else {
        (tier_5 * s).div_ceil(g)
    }
}

/// The largest of what the groups give i, for every i; s and g stand there by group.
pub fn largest_gifts(sums: &Sums, s_and_g: &[(u128, u128)]) -> Vec<u128> {
    let largest = |i: usize| {
        let gifts = s_and_g.iter().map(|&(s, g)| gift(sums.tier_5(i), s, g));
        gifts.max().unwrap_or(0)
    };
    (0..sums.n()).map(largest).collect()
}

/// A_i, for every i; i's own group gives too.
pub fn retention(sums: &Sums, making: &Making) -> Vec<u128> {
    let of = |group| (s_of(sums, making, group), g_of(sums, making, group));
    let s_and_g: Vec<(u128, u128)> = (0..GROUPS).map(of).collect();
    largest_gifts(sums, &s_and_g)
}
