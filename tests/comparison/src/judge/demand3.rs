//! Demand 3 on a listing that another program printed: the equations are put
//! over the feed's accepted entries and over the numbers as printed.

use crate::judge::accounts::{check, sum, Account};
use crate::judge::lines::{self, Line};
use reckoning::rules::addition::{added, Addition};
use reckoning::rules::codec::{
    self, Entry, Field, AMOUNT, ENERGY, NOTICE, OPEN, PURSE, RECEIPT, SETTLE, WASHUP,
};
use reckoning::rules::limits::Limits;
use reckoning::rules::making::Making;
use reckoning::rules::month::{self, Notice};
use reckoning::rules::purse::MOST_PURSE;
use reckoning::rules::refusals::*;
use std::collections::BTreeMap;

/// What a listing came to.
#[derive(Clone, Debug, Default)]
pub struct Count {
    pub settled_months: u64,
    pub late_receipts: u64,
    pub months_left: u64,
    pub months_with_arrears: u64,
    /// How often each answer was given.
    pub answers: [u64; NUMBERS],
}

struct Ledger {
    n: usize,
    in_book: BTreeMap<u32, Account>,
    /// What purse entries brought less what settlements drew, for each participant.
    purses: Vec<u128>,
    /// Cents of receipts and of purse entries; what is drawn is not received again.
    received: u128,
    paid: u128,
    count: Count,
}

impl Ledger {
    fn new(n: usize) -> Ledger {
        let (in_book, purses) = (BTreeMap::new(), vec![0; n]);
        Ledger { n, in_book, purses, received: 0, paid: 0, count: Count::default() }
    }

    /// Takes an accepted entry with the payouts printed for it.
    fn accepted(&mut self, entry: &Entry, payouts: &[u128]) -> Result<(), String> {
        check(self.n > 0, "an entry accepted in a book of refused n")?;
        let outside = entry.has(Field::Participant) && usize::from(entry.participant) >= self.n;
        check(!outside, "an entry accepted for a participant of n or above")?;
        match entry.kind {
            OPEN => {
                check(sum(payouts) == 0, "an opening paid money")?;
                let before = self.in_book.insert(entry.period, Account::new(self.n));
                check(before.is_none(), "a period opened twice")
            }
            PURSE => {
                check(sum(payouts) == 0, "a purse entry paid money")?;
                self.received += u128::from(entry.cents);
                let purse = &mut self.purses[usize::from(entry.participant)];
                *purse += u128::from(entry.cents);
                check(*purse <= MOST_PURSE, "a purse above its bound")
            }
            _ => self.accepted_on_period(entry, payouts),
        }
    }

    /// Takes an accepted entry that names a period in the book.
    fn accepted_on_period(&mut self, entry: &Entry, payouts: &[u128]) -> Result<(), String> {
        let Some(mut account) = self.in_book.remove(&entry.period) else {
            return Err("demand 3: an entry accepted on a period that is not in the book".into());
        };
        let was_settled = account.settled.is_some();
        self.enter(&mut account, entry)?;
        account.paid.iter_mut().zip(payouts).for_each(|(paid, cents)| *paid += cents);
        self.paid += sum(payouts);
        let mut left = false;
        if let Some(step) = &account.settled {
            left = account.check_settled(step)?;
            if was_settled {
                account.check_tiers(step, payouts)?;
            }
            self.count.months_left += u64::from(left);
            self.count.months_with_arrears += u64::from(!left && !was_settled);
        } else {
            check(sum(payouts) == 0, "money paid before settlement")?;
        }
        if !left {
            self.in_book.insert(entry.period, account);
        }
        Ok(())
    }

    /// What an accepted entry adds to its period.
    fn enter(&mut self, account: &mut Account, entry: &Entry) -> Result<(), String> {
        let participant = usize::from(entry.participant);
        match entry.kind {
            ENERGY | AMOUNT | WASHUP => {
                if let Some(Addition { side, tier, cents }) = added(entry) {
                    account.sums.add(participant, side, tier, cents);
                }
            }
            NOTICE => {
                // A listing's book has groups of one and no reserves.
                let making = Making::alone(self.n as u64);
                account.notice = Some(month::notice(&account.sums, &making));
            }
            RECEIPT => {
                let late = account.settled.is_some();
                let received = if late { &mut account.late } else { &mut account.received };
                received[participant] += u128::from(entry.cents);
                self.received += u128::from(entry.cents);
                self.count.late_receipts += u64::from(late);
            }
            SETTLE => {
                let Some(notice) = account.notice.take() else {
                    return Err("demand 3: settled before notice, or twice".into());
                };
                self.draw(account, entry.period, &notice)?;
                account.settled = Some(month::step_one(&notice, &account.received));
                self.count.settled_months += 1;
            }
            kind => panic!("no such kind: {kind}"),
        }
        Ok(())
    }

    /// Moves in what each payer has in its purse, up to what is unpaid, unless it has arrears in an
    /// older period.
    fn draw(&mut self, account: &mut Account, number: u32, notice: &Notice) -> Result<(), String> {
        for (payer, (&payable, received)) in
            notice.payable.iter().zip(&mut account.received).enumerate()
        {
            check(*received <= payable, "more received than payable")?;
            let mut older = self.in_book.range(..number);
            if !older.any(|(_, older)| older.arrears_of(payer) > 0) {
                let drawn = self.purses[payer].min(payable - *received);
                self.purses[payer] -= drawn;
                *received += drawn;
            }
        }
        Ok(())
    }

    /// The cents held that the listing prints, by both of 01's reckonings.
    fn check_held(&self, held: u128) -> Result<(), String> {
        check(self.received == self.paid + held, "received is not paid plus held")?;
        let in_book: u128 = self.in_book.values().map(Account::held).sum();
        let all = in_book + sum(&self.purses);
        check(all == held, "held is not the sum over the periods in the book and the purses")
    }

    fn entry(&mut self, entry: &Entry, line: &Line) -> Result<(), String> {
        let payouts = line.payouts(self.n)?;
        check(sum(&payouts) == line.paid, "the line's paid is not the sum of its payouts")?;
        match line.answer {
            ACCEPTED => self.accepted(entry, &payouts),
            _ => check(line.paid == 0, "a refused entry paid"),
        }
    }

    /// Takes the line of the entry at a place; where the next one is, unless this one cannot be read.
    fn line(&mut self, line: &Line, feed: &[u8], place: u64) -> Result<Option<u64>, String> {
        self.count.answers[usize::from(line.answer)] += 1;
        let next = match codec::read(feed, place) {
            Ok((entry, next)) => self.entry(&entry, line).map(|()| Some(next))?,
            Err(refusal) => {
                let right = line.answer == refusal && line.paid == 0;
                check(right, "unreadable bytes").map(|()| None)?
            }
        };
        self.check_held(line.held).map(|()| next)
    }
}

/// Checks demand 3 on a feed and the listing printed for it, of a book of some limits.
pub fn check_within(limits: Limits, feed: &[u8], listing: &[u8]) -> Result<Count, String> {
    let n = feed.first().copied().filter(|&n| limits.take(n.into()));
    let mut ledger = Ledger::new(n.map_or(0, usize::from));
    let mut place = Some(1);
    for (line, number) in lines::parse(listing)?.iter().zip(1..) {
        let taken = match place {
            _ if line.number != number => {
                Err("demand 3: entries are not numbered from 1 on".into())
            }
            None => Err("demand 3: a line after unreadable bytes".into()),
            Some(place) => ledger.line(line, feed, place),
        };
        place = taken.map_err(|what: String| format!("entry {number}: {what}"))?;
    }
    let whole = place.is_none_or(|place| place == feed.len().max(1) as u64);
    check(whole, "the listing ends before the feed")?;
    Ok(ledger.count)
}

#[cfg(test)]
mod tests {
    use super::*;
    use reckoning::rules::codec::MOST_CENTS;
    use reckoning::rules::limits::MARKET;

    #[test]
    fn a_purse_above_its_bound_is_told() {
        let entries = [Entry::purse(0, MOST_CENTS), Entry::purse(0, 1)];
        let feed: Vec<u8> = [1].into_iter().chain(entries.iter().flat_map(Entry::bytes)).collect();
        let listing = format!("{}\n1 0 0 {MOST_CENTS}\n", lines::HEADER);
        let (full, more) = (MOST_CENTS, MOST_CENTS + 1);
        let told =
            |second: String| check_within(MARKET, &feed, (listing.clone() + &second).as_bytes());
        assert!(told(format!("2 15 0 {full}\n")).is_ok());
        let above = told(format!("2 0 0 {more}\n")).unwrap_err();
        assert!(above.ends_with("a purse above its bound"), "{above}");
        // No number of a wrong listing makes a sum wrap.
        assert!(told(format!("2 0 0 {}\n", u128::MAX)).is_err());
    }
}
