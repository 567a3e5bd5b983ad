//! One month, through the library and as it was reckoned.

use binding::arguments::{self, word, Arguments, Rest};
use comparison::coverage::Seen;
use comparison::generate::months::Month;
use reckoning::rules::month::{Notice, StepOne};

/// What was compared, and how it differed.
#[derive(Default)]
pub struct Count {
    pub months: u64,
    pub with_rounds: u64,
    pub late: u64,
    pub cells: u64,
    /// What was seen of groups, of shared tiers and of held cents.
    pub seen: Seen,
    pub differences: Vec<String>,
}

impl Count {
    pub fn number(&mut self, what: &str, reckoned: u64, found: u64) {
        if reckoned != found {
            self.differences.push(format!("{what}: reckoned {reckoned}, found {found}"));
        }
    }

    /// The rows that an export wrote, and its slices lent anew.
    fn rows(&mut self, name: &str, with: &mut Arguments, rows: &[(&str, &[u128])]) {
        for ((what, reckoned), cells) in rows.iter().zip(&with.written) {
            self.cells += reckoned.len() as u64;
            let difference = arguments::difference(reckoned, cells);
            self.differences.extend(difference.map(|how| format!("{name}: {what}, {how}")));
        }
        with.lend();
    }

    /// A month's notice and settlement.
    pub fn month(&mut self, name: &str, month: &Month, rest: Rest) {
        let mut with = Arguments::of(month, rest);
        let (Notice { retention, payable, .. }, settled) = (&month.notice, &month.settlement);
        self.number(&format!("{name}: notice taken"), 1, with.notice().into());
        self.rows(name, &mut with, &[("retention", retention), ("payable", payable)]);
        let above: Vec<u128> = settled.scaled.iter().map(|s| s.max(&0).unsigned_abs()).collect();
        let below: Vec<u128> = settled.scaled.iter().map(|s| s.min(&0).unsigned_abs()).collect();
        let rows = [
            ("revised", &settled.revised[..]),
            ("scaled above 0", &above),
            ("scaled below 0", &below),
        ];
        self.number(&format!("{name}: scaled taken"), 1, with.scaled().into());
        self.rows(name, &mut with, &rows);
        let StepOne { claim, arrears, .. } = &settled.step_one;
        self.number(&format!("{name}: rounds"), settled.rounds, with.settle());
        self.rows(
            name,
            &mut with,
            &[("paid", &settled.paid), ("claim", claim), ("arrears", arrears)],
        );
        self.late(name, month, with, rest);
        self.months += 1;
        self.with_rounds += u64::from(settled.rounds > 0);
        month.show(&mut self.seen);
    }

    /// A month's late receipts, one after the other.
    fn late(&mut self, name: &str, month: &Month, mut with: Arguments, rest: Rest) {
        let mut paid = month.settlement.paid.clone();
        for (place, late) in month.late.iter().enumerate() {
            (with.money, with.paid) = (word(late.money), arguments::row(&paid, rest));
            self.number(&format!("{name}: late {place} taken"), 1, with.late().into());
            self.rows(name, &mut with, &[(&format!("late payment {place}"), &late.payments)]);
            paid.iter_mut().zip(&late.payments).for_each(|(paid, more)| *paid += more);
            self.late += 1;
        }
    }
}
