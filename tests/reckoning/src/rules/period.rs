//! A period of the book: its stage, its rows of cents, and what receipts and settlement do to it.

use crate::rules::book::MOST_TOTAL;
use crate::rules::codec::{AMOUNT, ENERGY, NOTICE, RECEIPT, SETTLE, WASHUP};
use crate::rules::month::{self, Notice, Rounds, Sums};
use crate::rules::sharing::Shares;

#[derive(Clone, Debug)]
pub enum Stage {
    BeforeNotice,
    Noticed(Notice),
    Settled { claim: Vec<u128>, arrears: Vec<u128> },
}

#[derive(Clone, Debug)]
pub struct Period {
    pub sums: Sums,
    pub stage: Stage,
    pub received: Vec<u128>,
    pub paid: Vec<u128>,
}

impl Period {
    pub fn new(n: usize) -> Period {
        let (received, paid) = (vec![0; n], vec![0; n]);
        Period { sums: Sums::new(n), stage: Stage::BeforeNotice, received, paid }
    }

    pub fn is_before_notice(&self) -> bool {
        matches!(self.stage, Stage::BeforeNotice)
    }

    pub fn is_noticed(&self) -> bool {
        matches!(self.stage, Stage::Noticed(_))
    }

    pub fn is_settled(&self) -> bool {
        matches!(self.stage, Stage::Settled { .. })
    }

    /// What a side has room for.
    pub fn room(&self, side: u8) -> u128 {
        let room = MOST_TOTAL.checked_sub(self.sums.total(side));
        room.expect("a side's total is within its bound")
    }

    /// Whether so many cents more would pass the bound of a side.
    pub fn passes_bound(&self, side: u8, cents: u128) -> bool {
        self.sums.total(side) + cents > MOST_TOTAL
    }

    /// What was received and not paid.
    pub fn held(&self) -> u128 {
        let received: u128 = self.received.iter().sum();
        let held = received.checked_sub(self.paid.iter().sum());
        held.expect("no more is paid than was received")
    }

    /// Arrears of a payer once the period is settled; 0 before.
    pub fn arrears_of(&self, payer: usize) -> u128 {
        match &self.stage {
            Stage::Settled { arrears, .. } => arrears[payer],
            _ => 0,
        }
    }

    /// The most that a receipt of this payer can be: what is left of P_i, or its arrears.
    pub fn most_receipt(&self, payer: usize) -> u128 {
        match &self.stage {
            Stage::BeforeNotice => 0,
            Stage::Noticed(notice) => notice.payable[payer] - self.received[payer],
            Stage::Settled { arrears, .. } => arrears[payer],
        }
    }

    pub fn settled_without_arrears(&self) -> bool {
        match &self.stage {
            Stage::Settled { arrears, .. } => arrears.iter().all(|&cents| cents == 0),
            _ => false,
        }
    }

    pub fn stage_takes(&self, kind: u8) -> bool {
        match self.stage {
            Stage::BeforeNotice => matches!(kind, ENERGY | AMOUNT | WASHUP | NOTICE),
            Stage::Noticed(_) => matches!(kind, RECEIPT | SETTLE),
            Stage::Settled { .. } => kind == RECEIPT,
        }
    }

    /// Adds a receipt and gives what it pays each participant, where tiers are shared so.
    pub fn receive(&mut self, payer: usize, cents: u128, shares: Shares) -> Vec<u128> {
        self.received[payer] += cents;
        let held = self.held();
        let Stage::Settled { claim, arrears } = &mut self.stage else {
            return vec![0; self.paid.len()];
        };
        arrears[payer] -= cents;
        let shortages = month::shortages(&self.sums, claim, &self.paid);
        let payments = shares(&shortages, held);
        for (paid, payment) in self.paid.iter_mut().zip(&payments) {
            *paid += payment;
        }
        payments
    }

    /// Settles, and gives what is paid to each participant and the rounds run, where the tier that is
    /// not met is shared so, and the rounds run so.
    pub fn settle(&mut self, by: (Shares, Rounds)) -> (Vec<u128>, u64) {
        let Stage::Noticed(notice) = &self.stage else {
            panic!("settled at a wrong stage");
        };
        let settlement = month::settle_by(&self.sums, notice, &self.received, by);
        let (claim, arrears) = (settlement.step_one.claim, settlement.step_one.arrears);
        self.stage = Stage::Settled { claim, arrears };
        self.paid.clone_from(&settlement.paid);
        (settlement.paid, settlement.rounds)
    }
}
