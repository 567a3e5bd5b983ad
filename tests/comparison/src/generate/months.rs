//! Random months given as rows, with all that 01 and 02 reckon from them, for a
//! comparison with the engine's functions.

use crate::coverage::leftovers::{By, Held};
use crate::coverage::Seen;
use crate::generate::groupings;
use crate::generate::random::Random;
use crate::generate::rounds;
use reckoning::rules::making::Making;
use reckoning::rules::month::{self, Notice, Settlement, Sums, TIERS};

/// A late receipt and what it pays each participant.
#[derive(Clone, Debug)]
pub struct Late {
    pub cents: u128,
    /// Each participant's shortage by tier before the receipt.
    pub shortages: Vec<[u128; TIERS]>,
    /// Cents held in the period, the receipt among them.
    pub money: u128,
    pub payments: Vec<u128>,
    pub held_after: u128,
}

/// A month's rows and the reckoned ones.
#[derive(Clone, Debug)]
pub struct Month {
    pub n: usize,
    /// What the month's book is made with.
    pub making: Making,
    pub sums: Sums,
    pub notice: Notice,
    pub received: Vec<u128>,
    pub settlement: Settlement,
    /// The money of step 2.
    pub available: u128,
    /// Right after settlement.
    pub held: u128,
    pub late: Vec<Late>,
}

impl Month {
    /// Whether groups of one and no reserves would give another payable row.
    pub fn has_other_row(&self) -> bool {
        let alone = Making::alone(self.n as u64);
        month::notice(&self.sums, &alone).payable != self.notice.payable
    }

    /// Counts what there is to see of it: its groups, its settlement and its late receipts.
    pub fn show(&self, seen: &mut Seen) {
        seen.see_groups(&self.making, self.has_other_row());
        let leftover = seen.see_shared(By::Settlement, &self.sums.to, self.available);
        seen.see_held(self.n, self.held, leftover);
        for late in &self.late {
            seen.see_shared(By::LateReceipt, &late.shortages, late.money);
            seen.see_if(late.money > late.cents, Held::Late);
        }
    }
}

/// The largest amount of a month's rows, so that a side stays within its bound.
fn any_size(random: &mut Random) -> u64 {
    random.pick(&[3, 12, 300, 1_000_000, 20_000_000_000])
}

fn any_sums(random: &mut Random, n: usize) -> Sums {
    let size = any_size(random);
    let mut sums = Sums::new(n);
    for _ in 0..random.between(1, 3 * n as u64) {
        let participant = random.below(n as u64) as usize;
        let side = random.below(2) as u8;
        let tier = random.pick(&[1, 2, 3, 4, 5, 5, 5]);
        sums.add(participant, side, tier, random.between(1, size).into());
    }
    let (by, to) = (sums.total(0), sums.total(1));
    let participant = random.below(n as u64) as usize;
    sums.add(participant, u8::from(by > to), random.pick(&[1, 3, 5]), by.abs_diff(to));
    sums
}

/// What each payer paid before settlement: all, nothing or a part.
fn any_receipts(random: &mut Random, notice: &Notice) -> Vec<u128> {
    let one = |&payable: &u128| match random.below(3) {
        0 => payable,
        1 => 0,
        _ => random.below(payable as u64 + 1).into(),
    };
    notice.payable.iter().map(one).collect()
}

/// Late receipts in slices, until the arrears are gone or at most 20 were received.
fn any_late(random: &mut Random, month: &Month) -> Vec<Late> {
    let mut late = Vec::new();
    let Settlement { step_one, paid, .. } = &month.settlement;
    let (mut arrears, mut paid, mut held) = (step_one.arrears.clone(), paid.clone(), month.held);
    while late.len() < 20 {
        let payers: Vec<usize> = (0..month.n).filter(|&i| arrears[i] > 0).collect();
        if payers.is_empty() {
            break;
        }
        let payer = random.pick(&payers);
        let part = random.between(1, arrears[payer] as u64);
        let cents = if random.chance(1, 2) { arrears[payer] } else { part.into() };
        let shortages = month::shortages(&month.sums, &step_one.claim, &paid);
        let money = held + cents;
        let payments = month::late_payments(&shortages, money);
        arrears[payer] -= cents;
        paid.iter_mut().zip(&payments).for_each(|(paid, payment)| *paid += payment);
        held = money - payments.iter().sum::<u128>();
        late.push(Late { cents, shortages, money, payments, held_after: held });
    }
    late
}

/// A month for a seed, of n participants that are each a group of their own, with no reserves.
pub fn month_of(seed: u64, n: usize) -> Month {
    month_in(seed, Making::alone(n as u64))
}

/// What a book of n participants is made with for a seed; in one of three cases it is groups of one
/// and no reserves.
pub fn any_making(seed: u64, n: usize) -> Making {
    let mut random = Random::of(seed, 58);
    match random.chance(1, 3) {
        true => Making::alone(n as u64),
        false => groupings::any_making(&mut random, n as u64),
    }
}

/// A month for a seed, in a book that is made so.
pub fn month_in(seed: u64, making: Making) -> Month {
    let n = making.n as usize;
    let mut random = Random::of(seed, 62);
    let of_rounds = n >= 4 && random.chance(1, 5);
    let sums = if of_rounds { rounds::sums(&mut random, n) } else { any_sums(&mut random, n) };
    let notice = month::notice(&sums, &making);
    let mut received = any_receipts(&mut random, &notice);
    if of_rounds {
        received.clone_from(&notice.payable);
        received[..2].fill(0);
    }
    let settlement = month::settle(&sums, &notice, &received);
    let available = sums.total(1) - settlement.step_one.arrears.iter().sum::<u128>();
    let held = received.iter().sum::<u128>() - settlement.paid.iter().sum::<u128>();
    let late = vec![];
    let mut month = Month { n, making, sums, notice, received, settlement, available, held, late };
    month.late = any_late(&mut random, &month);
    month
}

/// A month for a seed, with n from 1 to 64; small and large n are both frequent.
pub fn month(seed: u64) -> Month {
    let mut random = Random::new(!seed);
    let any = random.between(1, 64) as usize;
    let n = random.pick(&[1, 2, 3, 4, 5, 6, 63, 64, any, any]);
    month_in(seed, any_making(seed, n))
}

#[cfg(test)]
mod tests {
    use super::*;

    fn total(cents: &[u128]) -> u128 {
        cents.iter().sum()
    }

    /// The equations of demand 3 on random months, and the bound on rounds.
    #[test]
    fn random_months_keep_the_equations() {
        let mut most_rounds = 0;
        for seed in 0..3_000 {
            let month = month(seed);
            let Settlement { step_one, mut paid, rounds, .. } = month.settlement;
            let mut unpaid = total(&step_one.claim) - total(&paid);
            let mut arrears = total(&step_one.arrears);
            assert_eq!(unpaid, arrears + month.held, "seed {seed}");
            assert!(month.held < month.n as u128, "seed {seed}");
            assert!(rounds <= month.n as u64, "seed {seed}");
            most_rounds = most_rounds.max(rounds);
            for late in &month.late {
                paid.iter_mut().zip(&late.payments).for_each(|(paid, more)| *paid += more);
                unpaid -= total(&late.payments);
                arrears -= late.cents;
                assert_eq!(unpaid, arrears + late.held_after, "seed {seed}");
                assert_eq!(late.held_after, 0, "seed {seed}");
            }
            if arrears == 0 {
                assert_eq!(paid, step_one.claim, "seed {seed}");
            }
        }
        assert!(most_rounds >= 6);
    }
}
