//! What the accepted entries of a period come to, for demand 3.

use reckoning::rules::month::{self, Notice, StepOne, Sums, TIERS};

/// A period by the accepted entries that name it.
pub struct Account {
    pub sums: Sums,
    pub notice: Option<Notice>,
    pub settled: Option<StepOne>,
    /// Receipts before the settle entry, what was drawn on purses among them.
    pub received: Vec<u128>,
    /// Receipts after the settle entry.
    pub late: Vec<u128>,
    pub paid: Vec<u128>,
}

pub fn sum(cents: &[u128]) -> u128 {
    cents.iter().sum()
}

pub fn check(holds: bool, what: &str) -> Result<(), String> {
    if holds {
        Ok(())
    } else {
        Err(format!("demand 3: {what}"))
    }
}

impl Account {
    pub fn new(n: usize) -> Account {
        let none = vec![0; n];
        let (received, late, paid) = (none.clone(), none.clone(), none);
        Account { sums: Sums::new(n), notice: None, settled: None, received, late, paid }
    }

    /// What a payer has in arrears; 0 before settlement. Late receipts above it were told when they came.
    pub fn arrears_of(&self, payer: usize) -> u128 {
        let arrears = self.settled.as_ref().map_or(0, |step| step.arrears[payer]);
        arrears - self.late[payer]
    }

    pub fn held(&self) -> u128 {
        sum(&self.received) + sum(&self.late) - sum(&self.paid)
    }

    fn arrears(&self, step: &StepOne) -> Result<u128, String> {
        let mut total = 0;
        for (arrears, late) in step.arrears.iter().zip(&self.late) {
            check(arrears >= late, "a payer's late receipts pass its arrears")?;
            total += arrears - late;
        }
        Ok(total)
    }

    /// Whether the period must have left, after its equations were checked.
    pub fn check_settled(&self, step: &StepOne) -> Result<bool, String> {
        let arrears = self.arrears(step)?;
        let (receipts, paid) = (sum(&self.received) + sum(&self.late), sum(&self.paid));
        check(receipts >= paid, "more paid in a period than received in it")?;
        let held = receipts - paid;
        let claims = sum(&step.claim);
        check(claims == arrears + held + paid, "unpaid claims are not arrears plus held money")?;
        check(held < self.paid.len() as u128, "held money above n − 1")?;
        let came_late = sum(&self.late) > 0;
        check(!came_late || held == 0, "held money after a late receipt")?;
        if arrears == 0 {
            check(self.paid == step.claim, "a period left with a claim not paid in full")?;
        }
        Ok(arrears == 0)
    }

    /// No later tier gains while an earlier one has a shortage.
    pub fn check_tiers(&self, step: &StepOne, payouts: &[u128]) -> Result<(), String> {
        let mut short = [false; TIERS];
        let mut gains = [false; TIERS];
        for (i, payout) in payouts.iter().enumerate() {
            let tiers = &self.sums.to[i];
            let full = month::fill(tiers, step.claim[i]);
            let after = month::fill(tiers, self.paid[i]);
            let before = month::fill(tiers, self.paid[i] - payout);
            check(self.paid[i] <= step.claim[i], "a participant was paid above its claim")?;
            for tier in 0..TIERS {
                short[tier] |= after[tier] < full[tier];
                gains[tier] |= after[tier] > before[tier];
            }
        }
        let first_short = short.iter().position(|&short| short).unwrap_or(TIERS);
        let last_gain = gains.iter().rposition(|&gains| gains).unwrap_or(0);
        check(last_gain <= first_short, "late money to a tier while an earlier one was short")
    }
}

#[cfg(test)]
mod tests {
    use super::*;

    /// A period of three that is settled with claims of 0, 100 and 0 cents and 50 in arrears, after
    /// so many late cents, of which so many were paid.
    fn settled(late: u128, paid: u128) -> Result<bool, String> {
        let mut account = Account::new(3);
        let step = StepOne { set_off: vec![0; 3], arrears: vec![50, 0, 0], claim: vec![0, 100, 0] };
        (account.received[0], account.late[0], account.paid[1]) = (50, late, paid);
        account.check_settled(&step)
    }

    #[test]
    fn a_settled_period_holds_at_most_n_less_1_cents() {
        assert_eq!([50, 49, 48].map(|paid| settled(0, paid)), [Ok(false), Ok(false), Ok(false)]);
        assert!(settled(0, 47).unwrap_err().ends_with("above n − 1"));
        assert!(settled(0, 51).unwrap_err().ends_with("more paid in a period than received in it"));
    }

    #[test]
    fn a_settled_period_holds_nothing_after_a_late_receipt() {
        let paid_out = [1, 49, 50].map(|late| settled(late, 50 + late));
        assert_eq!(paid_out, [Ok(false), Ok(false), Ok(true)]);
        for late in [1, 49, 50] {
            let held = settled(late, 49 + late).unwrap_err();
            assert!(held.ends_with("held money after a late receipt"), "{held}");
        }
    }
}
