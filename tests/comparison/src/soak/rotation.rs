//! A feed over many months of one book, made entry by entry. Each period is
//! opened, noticed, settled and paid off by its age, so that as many as the period limit are in
//! rotation.

use super::filling;
use super::plan::Plan;
use crate::coverage::answers::ANSWERS;
use crate::coverage::{Seen, Watcher};
use crate::generate::aim::{Aim, Manner, Scale};
use crate::generate::random::Random;
use crate::judge::demand3::Count;
use reckoning::programs::observer::apply;
use reckoning::rules::codec::{Entry, Field, OPEN, RECEIPT, SETTLE};
use reckoning::rules::making::Making;
use reckoning::rules::period::{Period, Stage};
use reckoning::rules::refusals::ACCEPTED;
use std::collections::BTreeMap;

/// So many entries, money for purses, come before the first opening.
const EARLIEST: u64 = 3;
/// One entry of so many is meant to be refused.
const WRONG: u64 = 10;
/// How often such an entry is proposed anew when the book would accept it.
const TRIES: usize = 20;
/// One payer of so many fails to pay a month's notice, and one of so many that are in
/// arrears pays them all off in a given month.
const FAILING: u64 = 4;
const RECOVERING: u64 = 4;
/// The first months of so many are calm: every payer pays all it can.
const ERA: u64 = 16;
const CALM: u64 = 3;

/// What the feed has come to so far.
#[derive(Clone, Debug, Default)]
pub struct Reach {
    pub entries: u64,
    pub months_opened: u64,
    pub most_periods: u64,
    pub count: Count,
    pub seen: Seen,
}

pub struct Rotation {
    pub plan: Plan,
    pub reach: Reach,
    watcher: Watcher,
    pub(super) aim: Aim,
    /// How many entries there were when each period in the book was opened.
    pub(super) opened_after: BTreeMap<u32, u64>,
}

/// How large the amounts of a period are.
pub(super) fn scale_of(number: u32) -> Scale {
    Scale::ALL[number as usize % Scale::ALL.len()]
}

impl Rotation {
    pub fn new(plan: Plan, seed: u64) -> Rotation {
        let manner = Manner {
            scale: Scale::Few,
            wrong: 0,
            periods: plan.limits.periods,
            amounts: 0,
            step: 3,
            purses: 1,
            washups: filling::WASHUPS,
            alike: 0,
        };
        let aim = Aim::new(Random::new(seed), &Making::within(plan.limits, plan.n.into()), manner);
        let (reach, watcher, opened_after) = Default::default();
        Rotation { plan, reach, watcher, aim, opened_after }
    }

    /// What the feed has come to.
    pub fn into_reach(self) -> Reach {
        let mut seen = self.watcher.seen;
        seen.count_all(&ANSWERS, &self.reach.count.answers);
        Reach { seen, ..self.reach }
    }

    fn propose(&mut self) -> Entry {
        if self.reach.entries < EARLIEST {
            return self.aim.early_money();
        }
        if self.is_just_full() {
            return self.aim.opening();
        }
        let wrong = self.aim.random.chance(1, WRONG).then(|| self.refused());
        let entry = wrong.flatten().or_else(|| self.due()).or_else(|| self.by_share());
        // Period 0 cannot be opened: what is left when nothing else fits.
        entry.unwrap_or(Entry::open(0))
    }

    /// Whether the entry before filled the book: with few participants a period may leave soon.
    fn is_just_full(&self) -> bool {
        let last = self.opened_after.values().max();
        self.aim.book.is_full() && last == Some(&self.reach.entries)
    }

    /// An entry that the book refuses. While the book is full, which is seldom with few participants,
    /// it is often the opening of one more period.
    fn refused(&mut self) -> Option<Entry> {
        if self.aim.book.is_full() && self.aim.random.chance(1, 4) {
            return Some(self.aim.opening());
        }
        let n = self.aim.book.n;
        let mut proposed = (0..TRIES).map(|_| {
            let entry = self.aim.wrong_entry();
            self.aim.book.refusal(&entry, n).map(|_| entry)
        });
        proposed.find_map(|entry| entry)
    }

    /// What has to be done now: the oldest period first, and then the next opening.
    fn due(&mut self) -> Option<Entry> {
        let numbers: Vec<u32> = self.opened_after.keys().copied().collect();
        numbers.into_iter().find_map(|number| self.due_on(number)).or_else(|| self.opening_due())
    }

    fn due_on(&mut self, number: u32) -> Option<Entry> {
        let age = self.age(number);
        let plan = self.plan;
        match self.aim.book.periods[&number].stage {
            Stage::BeforeNotice if age >= plan.notice_due() => Some(self.aim.close(number)),
            Stage::Noticed(_) if age >= plan.settle_due() => Some(self.settling(number)),
            Stage::Settled { .. } if age >= plan.leaving_due() => self.receipt_in_full(number),
            _ => None,
        }
    }

    fn opening_due(&mut self) -> Option<Entry> {
        let due = self.reach.entries / self.plan.entries_of_a_month() + 1;
        let room = !self.aim.book.is_full();
        let wanted = self.reach.months_opened < due.min(self.plan.months);
        (room && wanted).then(|| self.aim.opening())
    }

    fn age(&self, number: u32) -> u64 {
        let entries = self.reach.entries - self.opened_after[&number];
        entries * 100 / self.plan.entries_of_a_month()
    }

    /// The settle entry; in a calm month what can still be received comes before it.
    fn settling(&mut self, number: u32) -> Entry {
        let receipt = self.is_calm().then(|| self.receipt_in_full(number)).flatten();
        receipt.unwrap_or(Entry::settle(number))
    }

    /// A receipt of all that the first payer who may pay has left to pay.
    fn receipt_in_full(&mut self, number: u32) -> Option<Entry> {
        let payer = *self.aim.payers(number).first()?;
        let most = self.aim.book.periods[&number].most_receipt(payer);
        Some(Entry::receipt(number, payer as u8, most as u64))
    }

    /// A receipt, a late one, money for a purse, or energy, a washup or an amount, each by its share
    /// of a month's entries.
    fn by_share(&mut self) -> Option<Entry> {
        let (n, month) = (u64::from(self.plan.n), self.plan.entries_of_a_month());
        let receipts = (2 * n).min(month / 8);
        let late = (8 * n).min(month / 4);
        let early = n.min(month / 16);
        let draw = self.aim.random.below(month);
        let money = if draw < receipts {
            self.receipt()
        } else if draw < receipts + late {
            self.late_receipt()
        } else if draw < receipts + late + early {
            Some(self.early_money())
        } else {
            None
        };
        money.or_else(|| self.energy_washup_or_amount())
    }

    /// A period in the book at a stage, and one of its payers that pays.
    fn any_payer(
        &mut self,
        at: fn(&Period) -> bool,
        pays: fn(&Rotation, usize, u32) -> bool,
    ) -> Option<(u32, usize)> {
        let periods = self.aim.book.periods.iter();
        let numbers: Vec<u32> =
            periods.filter(|(_, period)| at(period)).map(|(&number, _)| number).collect();
        let number = self.pick(&numbers)?;
        let mut payers = self.aim.payers(number);
        payers.retain(|&payer| pays(self, payer, number));
        self.pick(&payers).map(|payer| (number, payer))
    }

    fn pick<T: Copy>(&mut self, from: &[T]) -> Option<T> {
        (!from.is_empty()).then(|| self.aim.random.pick(from))
    }

    fn receipt(&mut self) -> Option<Entry> {
        let (number, payer) = self.any_payer(Period::is_noticed, Rotation::pays)?;
        Some(self.aim.receipt_of(number, payer))
    }

    /// All of a payer's arrears in a period, or a small part of them.
    fn late_receipt(&mut self) -> Option<Entry> {
        let (number, payer) = self.any_payer(Period::is_settled, |_, _, _| true)?;
        let arrears = self.aim.book.periods[&number].arrears_of(payer) as u64;
        let part = self.aim.random.between(1, arrears.div_ceil(8));
        let cents = if self.recovers(payer) { arrears } else { part };
        Some(Entry::receipt(number, payer as u8, cents))
    }

    fn is_calm(&self) -> bool {
        self.reach.months_opened % ERA < CALM
    }

    /// Whether a payer pays a period before settlement.
    fn pays(&self, payer: usize, number: u32) -> bool {
        let mut random = Random::new(u64::from(number) << 8 | payer as u64);
        self.is_calm() || !random.chance(1, FAILING)
    }

    /// Whether a payer pays its arrears in full as long as the newest month is the newest.
    fn recovers(&self, payer: usize) -> bool {
        let mut random = Random::new(!(self.reach.months_opened << 8 | payer as u64));
        self.is_calm() || random.chance(1, RECOVERING)
    }

    /// Applies an entry to the book that is aimed by.
    fn take(&mut self, entry: &Entry) {
        let before = self.aim.book.periods.get(&entry.period);
        let was_settled = before.is_some_and(Period::is_settled);
        let mut words = vec![0; self.aim.book.n];
        let answer = apply(&mut self.aim.book, entry, &mut words, &mut self.watcher).number;
        self.reach.entries += 1;
        self.reach.count.answers[usize::from(answer)] += 1;
        if answer == ACCEPTED && entry.has(Field::Period) {
            self.count(entry, was_settled);
        }
    }

    /// Counts what an accepted entry did to its period.
    fn count(&mut self, entry: &Entry, was_settled: bool) {
        let reach = &mut self.reach;
        let stays = self.aim.book.periods.contains_key(&entry.period);
        match entry.kind {
            OPEN => {
                reach.months_opened += 1;
                reach.most_periods = reach.most_periods.max(self.aim.book.periods.len() as u64);
                self.opened_after.insert(entry.period, reach.entries);
            }
            SETTLE => {
                reach.count.settled_months += 1;
                reach.count.months_with_arrears += u64::from(stays);
            }
            RECEIPT => reach.count.late_receipts += u64::from(was_settled),
            _ => (),
        }
        if !stays {
            reach.count.months_left += 1;
            self.opened_after.remove(&entry.period);
        }
    }
}

impl Iterator for Rotation {
    type Item = Entry;

    fn next(&mut self) -> Option<Entry> {
        if self.reach.entries == self.plan.entries {
            return None;
        }
        let entry = self.propose();
        self.take(&entry);
        Some(entry)
    }
}
