//! Clause 14.59 of document 004 in its own order (02, d), on signed amounts and with 01's rounding.
//! Step 4 of the settlement, which forms the deficit first, is held to it.

use crate::generate::months::{self, Month};
use reckoning::rules::month::{self, Settlement};

/// Whether AO positive counts a participant, by its scaled amount.
type Counts = fn(i128) -> bool;

/// The balances, which the clause calls the revised AP, and the number of rounds.
type Answer = (Vec<u128>, u64);

/// (4)(a): where the scaled amount is negative, the balance is set to 0.
fn paragraph_a(scaled: &[i128]) -> Vec<i128> {
    scaled.iter().map(|&amount| if amount < 0 { 0 } else { amount }).collect()
}

/// AP negative: the sum of the negative scaled amounts, never above 0.
fn ap_negative(scaled: &[i128]) -> i128 {
    scaled.iter().filter(|&&amount| amount < 0).sum()
}

/// AO positive: the sum of the revised amounts V of those that count.
fn ao_positive(scaled: &[i128], revised: &[u128], counts: Counts) -> u128 {
    let counted = scaled.iter().zip(revised).filter(|(&amount, _)| counts(amount));
    counted.map(|(_, &v)| v).sum()
}

/// AP negative × AO revised / AO positive of (4)(b), never above 0. It is rounded down, as what is
/// lost is rounded up (01).
fn share(negative: i128, v: u128, positive: u128) -> i128 {
    (negative * v as i128).div_euclid(positive as i128)
}

/// The clause's answer for scaled amounts and V, with AO positive of those that count.
fn by_paragraphs(scaled: &[i128], revised: &[u128], counts: Counts) -> Answer {
    let mut balances = scaled.to_vec();
    let mut rounds = 0;
    // What rounding took beyond AP negative in the round before.
    let mut rounded = 0;
    // (1): where none is negative, the scaled amounts are the balances.
    // (5): where a balance is negative, (4) takes the balances as the scaled amounts.
    while balances.iter().any(|&amount| amount < 0) {
        let scaled = balances;
        // (4)(a), then the two sums.
        balances = paragraph_a(&scaled);
        // 01 governs: D falls by all that was lost, rounded cents too; the clause's sum does not.
        let negative = (ap_negative(&scaled) + rounded).min(0);
        let positive = ao_positive(&scaled, revised, counts);
        // 01: a round runs while D > 0 and some balance is positive.
        if negative == 0 || balances.iter().all(|&balance| balance == 0) {
            break;
        }
        // (4)(b): AP revised = AP scaled + AP negative × AO revised / AO positive.
        rounded = negative;
        for i in (0..scaled.len()).filter(|&i| scaled[i] > 0) {
            let share = share(negative, revised[i], positive);
            balances[i] = scaled[i] + share;
            rounded -= share;
        }
        rounds += 1;
    }
    let cents = |amount| u128::try_from(amount).expect("no amount is negative");
    (balances.into_iter().map(cents).collect(), rounds)
}

/// Clause 14.59: AO positive is of those whose scaled amount is positive.
fn by_clause(scaled: &[i128], revised: &[u128]) -> Answer {
    by_paragraphs(scaled, revised, |amount| amount > 0)
}

/// Random months with n from 1 to 64.
fn random_months() -> impl Iterator<Item = Month> {
    (0..4_096).map(|seed| months::month_of(seed, 1 + seed as usize % 64))
}

#[test]
fn month_b_by_paragraphs() {
    let (scaled, revised) = ([0, 375, -75], [0, 375, 125]);
    assert_eq!(paragraph_a(&scaled), [0, 375, 0]);
    assert_eq!(ap_negative(&scaled), -75);
    assert_eq!(ao_positive(&scaled, &revised, |amount| amount > 0), 375);
    assert_eq!(share(-75, 375, 375), -75);
    assert_eq!(by_clause(&scaled, &revised), (vec![0, 300, 0], 1));
}

/// D = 10, balances 2 and 20, V 10 and 10; V of the negative amount's owner does not count.
#[test]
fn two_rounds_by_paragraphs() {
    for v in [0, 10] {
        assert_eq!(by_clause(&[2, 20, -10], &[10, 10, v]), (vec![0, 12, 0], 2));
    }
}

/// AP negative without a positive balance, from the start and after a round. No settlement comes to it.
#[test]
fn no_positive_balance_ends_the_rounds() {
    assert_eq!(by_clause(&[0, 0, -5], &[1, 1, 0]), (vec![0, 0, 0], 0));
    assert_eq!(by_clause(&[2, 3, -10], &[1, 1, 0]), (vec![0, 0, 0], 1));
    assert_eq!(month::rounds(5, vec![0, 0], &[1, 1]), (vec![0, 0], 0));
    assert_eq!(month::rounds(10, vec![2, 3], &[1, 1]), (vec![0, 0], 1));
}

/// The settlement's step 4 gives the clause's answer, in months of every number of rounds. The scaled
/// amounts come to what was received, so that a negative one is never without a positive balance.
#[test]
fn the_settlement_goes_by_the_clause() {
    // No negative amount; one round; two; three or more.
    let mut seen = [0; 4];
    for (seed, month) in random_months().enumerate() {
        let Settlement { scaled, revised, paid, rounds, .. } = month.settlement;
        let received: u128 = month.received.iter().sum();
        assert_eq!(scaled.iter().sum::<i128>(), received as i128, "seed {seed}");
        assert_eq!(by_clause(&scaled, &revised), (paid, rounds), "seed {seed}");
        assert_eq!(rounds > 0, scaled.iter().any(|&amount| amount < 0), "seed {seed}");
        seen[rounds.min(3) as usize] += 1;
    }
    assert!(seen.iter().all(|&count| count > 0), "{seen:?}");
}

/// AO positive of all participants, and as it is formed before (a), of all whose scaled amount is not 0.
#[test]
fn another_ao_positive_is_told_apart() {
    let others: [Counts; 2] = [|_| true, |amount| amount != 0];
    for counts in others {
        assert!(random_months().any(|month| {
            let Settlement { scaled, revised, .. } = month.settlement;
            by_paragraphs(&scaled, &revised, counts) != by_clause(&scaled, &revised)
        }));
    }
}
