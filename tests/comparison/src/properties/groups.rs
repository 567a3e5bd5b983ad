//! Groups of one and no reserves give 01's retention (02, a), over random months.

use crate::coverage::group_kinds::{Reserves, Shape};
use crate::generate::groupings;
use crate::generate::months;
use crate::generate::random::Random;
use reckoning::rules::making::Making;
use reckoning::rules::month::Sums;
use reckoning::rules::retention::retention;

/// What 01 retains, by its own words: p for each participant, itself its own group.
fn retention_of_01(sums: &Sums) -> Vec<u128> {
    let n = sums.n();
    let gift = |p: usize, i: usize| {
        let s = sums.owing_by(p).saturating_sub(sums.owing_to(p));
        let g: u128 = (0..n).filter(|&other| other != p).map(|other| sums.tier_5(other)).sum();
        match (s, g) {
            (0, _) | (_, 0) => 0,
            _ if s >= g => sums.tier_5(i),
            _ => (sums.tier_5(i) * s).div_ceil(g),
        }
    };
    (0..n).map(|i| (0..n).map(|p| gift(p, i)).max().unwrap_or(0)).collect()
}

#[test]
fn groups_of_one_give_the_retention_of_01() {
    let mut random = Random::new(4);
    for seed in 0..600 {
        let sums = months::month(seed).sums;
        let n = sums.n() as u64;
        let reserves = random.pick(&[Reserves::None, Reserves::Memberless]);
        let shuffled = groupings::making(&mut random, n, Shape::Shuffled, reserves);
        let expected = retention_of_01(&sums);
        assert_eq!(retention(&sums, &Making::alone(n)), expected, "seed {seed}");
        assert_eq!(retention(&sums, &shuffled), expected, "seed {seed}");
    }
}
