//! Cases of leftover cents (02, g) by hand: equal remainders, shares without one, a tier in the middle,
//! late money that shares a tier, and months whose rounds leave cents held. But where it is told
//! otherwise payer 0 owes all, so that all of its cents are payable, and each claim is what is owing.

use crate::cases::Case;
use reckoning::rules::codec::{Entry, MOST_CENTS};
use reckoning::rules::refusals::PERIOD_NOT_IN_BOOK;

/// A month of period 1 to its notice: cents owing by participants, and to them by tier.
fn noticed(name: &str, n: u8, by: &[(u8, u64)], to: &[(u8, u8, u64)]) -> Case {
    Case::new(name, n)
        .stand([Entry::open(1)])
        .stand(by.iter().map(|&(i, cents)| Entry::amount(1, i, 0, 0, cents)))
        .stand(to.iter().map(|&(i, tier, cents)| Entry::amount(1, i, 1, tier, cents)))
        .stand([Entry::notice(1)])
}

impl Case {
    /// A payer pays so many cents of period 1, which is settled then.
    fn settled(self, payer: u8, cents: u64, paid: impl Into<Vec<u64>>, held: u128) -> Case {
        let case = match cents {
            0 => self,
            _ => self.holds(Entry::receipt(1, payer, cents), cents.into()),
        };
        case.pays(Entry::settle(1), paid, held)
    }

    /// A late receipt, after which nothing is held.
    fn late(self, payer: u8, cents: u64, paid: impl Into<Vec<u64>>) -> Case {
        self.pays(Entry::receipt(1, payer, cents), paid, 0)
    }
}

/// 5 of 9 are there, 1 2/3 each: of three equal remainders two get a cent. A late cent is 1/4, 1/4 and
/// 1/2 of what is short, and the next one 1/3 each.
fn equal_remainders() -> Case {
    noticed("equal remainders", 4, &[(0, 9)], &[(3, 5, 3), (2, 5, 3), (1, 5, 3)])
        .settled(0, 5, [0, 2, 2, 1], 0)
        .late(0, 1, [0, 0, 0, 1])
        .late(0, 1, [0, 1, 0, 0])
        .late(0, 2, [0, 0, 1, 1])
}

/// 2 of 4 are 1/2 and 1 1/2: the lower number has the cent, though less is owing to it.
fn lower_number_of_less() -> Case {
    noticed("the lower number of less", 3, &[(0, 4)], &[(1, 5, 1), (2, 5, 3)])
        .settled(0, 2, [0, 1, 1], 0)
        .late(0, 1, [0, 0, 1])
        .late(0, 1, [0, 0, 1])
}

/// The same with more owing to the lower number. A late cent is 1/2 each.
fn lower_number_of_more() -> Case {
    noticed("the lower number of more", 3, &[(0, 4)], &[(1, 5, 3), (2, 5, 1)])
        .settled(0, 2, [0, 2, 0], 0)
        .late(0, 1, [0, 1, 0])
        .late(0, 1, [0, 0, 1])
}

/// 3 of 6 are 1/2, 1/2 and 2, which has no remainder. A late cent is 1/3 and 2/3, the next 1/2 each.
fn without_a_remainder() -> Case {
    noticed("a share without a remainder", 4, &[(0, 6)], &[(1, 5, 1), (2, 5, 1), (3, 5, 4)])
        .settled(0, 3, [0, 1, 0, 2], 0)
        .late(0, 1, [0, 0, 0, 1])
        .late(0, 1, [0, 0, 1, 0])
        .late(0, 1, [0, 0, 0, 1])
}

/// Tier 2, of which nothing is retained. 6 of 7 are 6/7 each: six cents for seven remainders, and what
/// is owing to each who has a cent is paid in full.
fn most_leftover_cents() -> Case {
    let to: Vec<(u8, u8, u64)> = (0..7).map(|i| (i, 2, 1)).collect();
    noticed("the most leftover cents", 8, &[(7, 7)], &to).settled(7, 6, [1; 6], 0).late(
        7,
        1,
        [0, 0, 0, 0, 0, 0, 1, 0],
    )
}

/// n − 1 leftover cents: a cent is owing to each. To payer 0 too, which lowers what is payable by it to 2,
/// of which it pays 1. 2 of 3 are 2/3 each, so that V is 1, 1 and 0. Claims are 0, 1 and 1.
fn a_cent_for_the_payer() -> Case {
    noticed("a cent for the payer", 3, &[(0, 3)], &[(0, 2, 1), (1, 2, 1), (2, 2, 1)])
        .settled(0, 1, [0, 1, 0], 0)
        .late(0, 1, [0, 0, 1])
}

/// 12 of 20: tier 1 takes 5, tier 2 is empty, tier 3 has 7 of 12, which is 2 1/3 each, and later tiers
/// get nothing, though a cent would meet tier 4. 4 late are 4/5, 1 3/5 and 1 3/5 of the 5 that tier 3
/// lacks: of two leftover cents one goes to 4/5 and one to the lower of the equals. 2 more meet tier 3
/// and tier 4, and the last 2 are for tier 5.
fn a_tier_in_the_middle() -> Case {
    let to = [(1, 1, 2), (3, 1, 3), (1, 3, 4), (2, 3, 4), (3, 3, 4), (1, 4, 1), (2, 5, 2)];
    noticed("a tier in the middle", 4, &[(0, 20)], &to)
        .settled(0, 12, [0, 5, 2, 5], 0)
        .late(0, 4, [0, 1, 2, 1])
        .late(0, 2, [0, 1, 0, 1])
        .late(0, 2, [0, 0, 2, 0])
}

/// Nothing is there to be shared before late money. Of 1 it is 1/2 each, then 2/5 and 3/5, then 1/2
/// each; 3 more meet the tier.
fn all_of_it_late() -> Case {
    noticed("all of it late", 3, &[(0, 6)], &[(1, 2, 3), (2, 2, 3)])
        .settled(0, 0, [0, 0, 0], 0)
        .late(0, 1, [0, 1, 0])
        .late(0, 1, [0, 0, 1])
        .late(0, 1, [0, 1, 0])
        .late(0, 3, [0, 1, 2])
}

/// Payer 0 owes 3 and pays them; payer 3 owes 5, where 2 are owing to it, and pays nothing. Retention is
/// 0, 2, 2 and 1, payable are 3 and 4, and claims are 0, 3, 3 and 1 − 1 with 3 in arrears. 5 of 8 are 1
/// 7/8, 1 7/8 and 1 1/4, so that V is 2, 2 and 1, and scaled are 2, 2 and −1. In one round 1 and 2 lose
/// 1/2 each, rounded up: a cent is held. With 1 or 2 late cents it is 2 or 3 of the 4 that are short.
fn rounds_that_hold_one(name: &str) -> Case {
    noticed(name, 4, &[(0, 3), (3, 5)], &[(1, 5, 3), (2, 5, 3), (3, 5, 2)]).settled(
        0,
        3,
        [0, 1, 1, 0],
        1,
    )
}

/// Payers 0 and 3 owe 6 each, where 3 are owing to each of four. Of payer 0 s is 3 and g is 9, and so of
/// payer 3: retention is 1 each, payable are 4 and 4, and claims are 1, 3, 3 and 1 − 1 with 3 in arrears.
/// 9 of 12 are 2 1/4 each, so that V is 3, 2, 2 and 2, and scaled are 1, 2, 2 and −1. In one round 0, 1
/// and 2 lose a part of a cent, rounded up: two cents are held. With a late cent they are 3 of the 5 that
/// are short: 3/5, 1 1/5 and 1 1/5.
fn rounds_that_hold_two() -> Case {
    let to = [(0, 5, 3), (1, 5, 3), (2, 5, 3), (3, 5, 3)];
    noticed("rounds that hold two cents", 4, &[(0, 6), (3, 6)], &to)
        .settled(0, 4, [0, 1, 1, 0], 2)
        .late(3, 1, [1, 1, 1, 0])
        .late(3, 2, [0, 1, 1, 0])
}

/// A cent and 10^13 − 1: half of it is 1/2 and 4,999,999,999,999 1/2, and the lower number has the cent.
fn at_the_bound(name: &str, to: [u64; 2], payouts: [[u64; 3]; 2]) -> Case {
    noticed(name, 3, &[(0, MOST_CENTS)], &[(1, 5, to[0]), (2, 5, to[1])])
        .settled(0, MOST_CENTS / 2, payouts[0], 0)
        .late(0, MOST_CENTS / 2, payouts[1])
}

/// Thirds of 10^13, a cent more for the first. All but 2 cents are there, and each share lacks about 2/3
/// of a cent; the first lacks 2 × 10^-13 of one more than the others, so that the cent goes to the second.
fn nearly_equal_remainders() -> Case {
    let third = MOST_CENTS / 3;
    let to = [(1, 5, third + 1), (2, 5, third), (3, 5, third)];
    noticed("nearly equal remainders", 4, &[(0, MOST_CENTS)], &to)
        .settled(0, MOST_CENTS - 2, [0, third, third, third - 1], 0)
        .late(0, 2, [0, 1, 0, 1])
}

pub fn cases() -> Vec<Case> {
    let (most, half) = (MOST_CENTS - 1, MOST_CENTS / 2);
    let (first, second) = ([[0, 1, half - 1], [0, 0, half]], [[0, half, 0], [0, half - 1, 1]]);
    let without = rounds_that_hold_one("rounds, then late cents without a remainder");
    let shared = rounds_that_hold_one("rounds, then late cents that are shared");
    let cases = [
        lower_number_of_less(),
        lower_number_of_more(),
        a_cent_for_the_payer(),
        all_of_it_late(),
        at_the_bound("a cent before nearly the bound", [1, most], first),
        at_the_bound("a cent after nearly the bound", [most, 1], second),
        equal_remainders(),
        without_a_remainder(),
        a_tier_in_the_middle(),
        nearly_equal_remainders(),
        without.late(3, 1, [0, 1, 1, 0]).late(3, 2, [0, 1, 1, 0]),
        shared.late(3, 2, [0, 2, 1, 0]).late(3, 1, [0, 0, 1, 0]),
        rounds_that_hold_two(),
        most_leftover_cents(),
    ];
    // The last late receipt has met all claims, so that the period has left.
    cases.map(|case| case.refused(Entry::settle(1), PERIOD_NOT_IN_BOOK)).into()
}
