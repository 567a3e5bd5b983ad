//! The words of 02, g, pair by pair, over random amounts up to the bound of a side.

use crate::generate::random::Random;
use reckoning::rules::sharing::Shared;

/// Each share is rounded down or a cent more, none is above what is wanted, all money is shared, and
/// whoever has no cent has a smaller remainder than each who has one, or an equal one and a higher number.
#[test]
fn no_pair_of_participants_is_out_of_order() {
    let mut random = Random::new(7);
    for _ in 0..4_000 {
        let n = random.between(1, 12);
        let size = random.pick(&[2, 5, 300, 10_000_000_000_000 / n]);
        let wanted: Vec<u128> = (0..n).map(|_| random.between(0, size).into()).collect();
        let total: u128 = wanted.iter().sum();
        if total == 0 {
            continue;
        }
        let money = u128::from(random.below(total as u64));
        let shares = Shared { tier: 0, wanted: wanted.clone(), money }.shares();
        assert_eq!(shares.iter().sum::<u128>(), money);
        let down = |i: usize| wanted[i] * money / total;
        let remainder = |i: usize| wanted[i] * money % total;
        let has_cent = |i: usize| shares[i] == down(i) + 1;
        for i in 0..n as usize {
            assert!(shares[i] <= wanted[i] && (has_cent(i) || shares[i] == down(i)));
            for j in (0..n as usize).filter(|&j| has_cent(i) && !has_cent(j)) {
                assert!((remainder(j), i) < (remainder(i), j), "{wanted:?} {money}");
            }
        }
    }
}
