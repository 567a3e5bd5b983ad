//! Leftover cents (02, g), where a settlement shares a tier and where a late receipt does, and the cents
//! that a settlement leaves held.

use crate::coverage::sights::ALONE;
use crate::coverage::{Place, Request, Seen, Subject, Watch};
use reckoning::programs::observer::Applied;
use reckoning::rules::book::Book;
use reckoning::rules::codec::{Entry, RECEIPT, SETTLE};
use reckoning::rules::month::{self, Notice, TIERS};
use reckoning::rules::period::{Period, Stage};
use reckoning::rules::refusals::ACCEPTED;
use reckoning::rules::sharing::{self, Shared};

pub static REQUEST: Request =
    Request { subjects: &[&LEFTOVERS, &HELD], watch: Some(|| Box::<Leftovers>::default()) };

pub static LEFTOVERS: Subject = Subject {
    name: "shared tiers",
    rows: Sight::ROWS,
    columns: &["by settlements", "by late receipts"],
    needed: |place, row, _| needed(place, OF_SOAK.iter().any(|&sight| sight as usize == row)),
};

pub static HELD: Subject = Subject {
    name: "held cents",
    rows: Held::ROWS,
    columns: ALONE,
    needed: |place, row, _| needed(place, row != Held::Most as usize),
};

/// The amounts of a soak are mostly large, so that remainders are seldom equal, and its months mostly
/// come to tier 5.
const OF_SOAK: [Sight; 5] =
    [Sight::MoreCents, Sight::Tier5, Sight::AfterMet, Sight::ToLess, Sight::ToHigher];

fn needed(place: Place, of_soak: bool) -> bool {
    match place {
        Place::Trials | Place::Listings(_) | Place::Months => true,
        Place::Soak(_) => of_soak,
        Place::Lists | Place::ListedLists => false,
    }
}

/// What shares a tier: the columns.
#[derive(Clone, Copy, Debug, PartialEq, Eq)]
pub enum By {
    Settlement,
    LateReceipt,
}

sights! {
    /// What can be seen of a tier that is shared; from the second on with leftover cents.
    pub enum Sight of LEFTOVERS {
        NoCent = "without a leftover cent",
        OneCent = "with one",
        MoreCents = "with more",
        Tier1 = "in tier 1",
        Tier2 = "in tier 2",
        Tier3 = "in tier 3",
        Tier4 = "in tier 4",
        Tier5 = "in tier 5",
        AfterMet = "after a tier that was met",
        BeforeWanted = "before a tier that gets nothing",
        AllButOne = "two or more, one less than shares with a remainder",
        EqualsCut = "of equal remainders some got a cent and some did not",
        UnlikeEqualsCut = "of such, with unlike amounts wanted",
        NoRemainder = "beside a share without a remainder",
        ToLess = "a cent to who wants less than one that got none",
        ToHigher = "a cent to a higher number than one that got none",
        AllWanted = "a share with its cent is all that is wanted",
    }
}

const TIER_SIGHTS: [Sight; TIERS] =
    [Sight::Tier1, Sight::Tier2, Sight::Tier3, Sight::Tier4, Sight::Tier5];

sights! {
    /// What can be seen of cents that a settlement leaves held.
    pub enum Held of HELD {
        Cents = "settlements that leave cents held",
        /// Whose scaled amount is negative loses nothing by rounding, and one cent less than those that
        /// do is the most.
        Most = "just n - 2 of them",
        BesideLeftovers = "some, though leftover cents of a tier were given too",
        Late = "late receipts on a period that held cents",
    }
}

/// How many tiers were shared with leftover cents.
pub fn with_cents(seen: &Seen) -> u64 {
    seen.of(Sight::OneCent) + seen.of(Sight::MoreCents)
}

/// What there is to see of a tier that is shared with leftover cents.
fn sights(shared: &Shared, wanted: &[[u128; TIERS]]) -> Vec<(bool, Sight)> {
    let (remainders, shares) = (shared.remainders(), shared.shares());
    // The participants that get a cent, and those with a remainder that do not.
    let mut owners = shared.by_remainder();
    owners.retain(|&i| remainders[i] > 0);
    let others = owners.split_off(shared.leftover());
    let of = &shared.wanted;
    let wants_in = |tier: usize| wanted.iter().any(|tiers| tiers[tier] > 0);
    // Whether an owner of a cent and one with a remainder and no cent are so.
    let some_pair = |is_so: &dyn Fn(usize, usize) -> bool| {
        owners.iter().any(|&i| others.iter().any(|&j| is_so(i, j)))
    };
    let equal = |i: usize, j: usize| remainders[i] == remainders[j];
    vec![
        (owners.len() == 1, Sight::OneCent),
        (owners.len() > 1, Sight::MoreCents),
        (true, TIER_SIGHTS[shared.tier]),
        ((0..shared.tier).any(wants_in), Sight::AfterMet),
        ((shared.tier + 1..TIERS).any(wants_in), Sight::BeforeWanted),
        (owners.len() > 1 && others.len() == 1, Sight::AllButOne),
        (some_pair(&equal), Sight::EqualsCut),
        (some_pair(&|i, j| equal(i, j) && of[i] != of[j]), Sight::UnlikeEqualsCut),
        ((0..of.len()).any(|i| of[i] > 0 && remainders[i] == 0), Sight::NoRemainder),
        (some_pair(&|i, j| of[i] < of[j]), Sight::ToLess),
        (some_pair(&|i, j| i > j), Sight::ToHigher),
        (owners.iter().any(|&i| shares[i] == of[i]), Sight::AllWanted),
    ]
}

impl Seen {
    /// Some money is for what is wanted in tiers; the leftover cents of the one that is shared. A tier
    /// for which nothing is left does not count.
    pub fn see_shared(&mut self, by: By, wanted: &[[u128; TIERS]], money: u128) -> usize {
        let Some(shared) = sharing::met(wanted, money).1.filter(|shared| shared.money > 0) else {
            return 0;
        };
        let sights = match shared.leftover() {
            0 => vec![(true, Sight::NoCent)],
            _ => sights(&shared, wanted),
        };
        for (_, sight) in sights.into_iter().filter(|(is_so, _)| *is_so) {
            self.see_in(sight, by as usize);
        }
        shared.leftover()
    }

    /// A settlement of n participants left cents held, and gave so many leftover ones of a tier.
    pub fn see_held(&mut self, n: usize, held: u128, leftover: usize) {
        self.see_if(held > 0, Held::Cents);
        self.see_if(held > 0 && held + 2 == n as u128, Held::Most);
        self.see_if(held > 0 && leftover > 0, Held::BesideLeftovers);
    }
}

/// What an entry finds in the book, if it can share a tier: what is wanted in each tier, and the money
/// for it.
struct Found {
    by: By,
    wanted: Vec<[u128; TIERS]>,
    money: u128,
    /// The cents that the period holds before a late receipt.
    held: u128,
}

/// The available money of step 2, with what is moved in from purses.
fn available(book: &Book, number: u32, notice: &Notice) -> u128 {
    let period = &book.periods[&number];
    let drawn = book.drawn(number);
    let received: Vec<u128> =
        period.received.iter().zip(drawn).map(|(had, more)| had + more).collect();
    period.sums.total(1) - month::step_one(notice, &received).arrears.iter().sum::<u128>()
}

impl Found {
    fn in_book(book: &Book, entry: &Entry) -> Option<Found> {
        let period = book.periods.get(&entry.period)?;
        match (entry.kind, &period.stage) {
            (SETTLE, Stage::Noticed(notice)) => {
                let money = available(book, entry.period, notice);
                Some(Found { by: By::Settlement, wanted: period.sums.to.clone(), money, held: 0 })
            }
            (RECEIPT, Stage::Settled { claim, .. }) => {
                let wanted = month::shortages(&period.sums, claim, &period.paid);
                let held = period.held();
                let money = held + u128::from(entry.cents);
                Some(Found { by: By::LateReceipt, wanted, money, held })
            }
            _ => None,
        }
    }
}

#[derive(Default)]
struct Leftovers {
    found: Option<Found>,
}

impl Watch for Leftovers {
    fn before(&mut self, book: &Book, entry: &Entry) {
        self.found = Found::in_book(book, entry);
    }

    fn after(&mut self, book: &Book, applied: &Applied, seen: &mut Seen) {
        let Some(found) = self.found.take().filter(|_| applied.answer.number == ACCEPTED) else {
            return;
        };
        let leftover = seen.see_shared(found.by, &found.wanted, found.money);
        match found.by {
            By::Settlement => {
                // A period without arrears has left, and holds nothing.
                let held = book.periods.get(&applied.entry.period).map_or(0, Period::held);
                seen.see_held(book.n, held, leftover);
            }
            By::LateReceipt => seen.see_if(found.held > 0, Held::Late),
        }
    }
}
