//! Purses (02, c): what comes to them, and what settlements draw.

use crate::coverage::sights::ALONE;
use crate::coverage::{Place, Request, Seen, Subject, Watch};
use reckoning::programs::observer::{Applied, Made};
use reckoning::rules::book::Book;
use reckoning::rules::codec::{Entry, PURSE, RECEIPT, SETTLE};
use reckoning::rules::period::{Period, Stage};
use reckoning::rules::purse::{Payer, MOST_PURSE};
use reckoning::rules::refusals::{ACCEPTED, PURSE_PASSES_BOUND, RECEIPT_ABOVE};
use std::cmp::Ordering;
use std::collections::BTreeSet;
use std::ops::Bound::{Excluded, Unbounded};

pub static REQUEST: Request =
    Request { subjects: &[&PURSES], watch: Some(|| Box::<Purses>::default()) };

pub static PURSES: Subject = Subject { name: "purses", rows: Sight::ROWS, columns: ALONE, needed };

/// Not needed of a soak: its periods settle in order, so that none that settles has a later one with
/// arrears; and a payer mostly pays all of a month by receipts, or nothing.
const NOT_OF_SOAK: [Sight; 2] = [Sight::LaterArrears, Sight::BesideReceipts];

fn needed(place: Place, row: usize, _: usize) -> bool {
    match place {
        Place::Trials | Place::Listings(_) => true,
        Place::Soak(_) => !NOT_OF_SOAK.iter().any(|&sight| sight as usize == row),
        _ => false,
    }
}

sights! {
    pub enum Sight of PURSES {
        NoPeriod = "entries accepted with no period in the book",
        BeforeNotice = "with a period before its notice",
        Noticed = "with one after it",
        Settled = "with one settled",
        InArrears = "of a participant in arrears",
        ToBound = "up to the bound of the purse",
        PastBound = "refused with 15 for one cent",
        Part = "moved in: all of the purse, which is a part of what is unpaid",
        All = "all of the purse, which is all that is unpaid",
        More = "a part of the purse, which is all that is unpaid",
        Barred = "not moved in: arrears in an older period bar it",
        PaidByReceipts = "receipts have paid all",
        NothingPayable = "nothing is payable",
        BesideReceipts = "moved in beside receipts",
        FromRest = "from what an earlier settlement left in the purse",
        Freed = "of a payer that older arrears barred before",
        BesideBarred = "while older arrears bar another payer",
        LaterArrears = "with arrears of the payer in a later period",
        OthersArrears = "with arrears of others in an older period",
        Late = "late receipts of a payer that had cents moved in",
        ACentAbove = "such receipts refused with 13 for one cent",
    }
}

/// How often cents were moved in.
pub fn drawn(seen: &Seen) -> u64 {
    [Sight::Part, Sight::All, Sight::More].into_iter().map(|sight| seen.of(sight)).sum()
}

/// A payer at a settle entry, and arrears beside its own older ones.
struct Drawer {
    payer: Payer,
    /// It has some in a later period.
    later_arrears: bool,
    /// An older period has some of another payer.
    others_arrears: bool,
}

/// What an entry finds in the book, if it has to do with purses.
enum Found {
    PurseEntry { purse: u128, stages: Vec<Sight>, arrears: bool },
    Settling { drawers: Vec<Drawer> },
    LateReceipt { arrears: u128 },
}

/// The stages of the periods in the book.
fn stages(book: &Book) -> Vec<Sight> {
    let is = |fits: fn(&Period) -> bool| book.periods.values().any(fits);
    let stages = [
        (book.periods.is_empty(), Sight::NoPeriod),
        (is(Period::is_before_notice), Sight::BeforeNotice),
        (is(Period::is_noticed), Sight::Noticed),
        (is(Period::is_settled), Sight::Settled),
    ];
    stages.into_iter().filter(|(is, _)| *is).map(|(_, sight)| sight).collect()
}

fn drawers(book: &Book, number: u32) -> Vec<Drawer> {
    let arrears = |period: &Period, i: usize| period.arrears_of(i) > 0;
    let drawer = |(i, payer): (usize, Payer)| {
        let mut older = book.periods.range(..number);
        let mut later = book.periods.range((Excluded(number), Unbounded));
        let others = |period: &Period| (0..book.n).any(|j| j != i && arrears(period, j));
        Drawer {
            payer,
            later_arrears: later.any(|(_, later)| arrears(later, i)),
            others_arrears: older.any(|(_, older)| others(older)),
        }
    };
    book.payers(number).into_iter().enumerate().map(drawer).collect()
}

impl Found {
    fn in_book(book: &Book, entry: &Entry) -> Option<Found> {
        let participant = usize::from(entry.participant);
        if entry.kind == PURSE {
            let purse = *book.purses.get(participant)?;
            let arrears = book.periods.values().any(|period| period.arrears_of(participant) > 0);
            return Some(Found::PurseEntry { purse, stages: stages(book), arrears });
        }
        let period = book.periods.get(&entry.period)?;
        match (entry.kind, &period.stage) {
            (SETTLE, Stage::Noticed(_)) => {
                Some(Found::Settling { drawers: drawers(book, entry.period) })
            }
            (RECEIPT, Stage::Settled { arrears, .. }) => {
                Some(Found::LateReceipt { arrears: *arrears.get(participant)? })
            }
            _ => None,
        }
    }
}

#[derive(Default)]
struct Purses {
    /// What the entry that is being applied finds.
    found: Option<Found>,
    /// Whose purse is what a draw left, and no money came since.
    rests: BTreeSet<usize>,
    /// Who was barred with a purse at a settle entry, and drew on none since.
    barred: BTreeSet<usize>,
    /// The periods in which each payer drew.
    drew: BTreeSet<(u32, usize)>,
}

impl Watch for Purses {
    fn made(&mut self, _: &Made, _: &mut Seen) {
        *self = Purses::default();
    }

    fn before(&mut self, book: &Book, entry: &Entry) {
        self.found = Found::in_book(book, entry);
    }

    fn after(&mut self, _: &Book, applied: &Applied, seen: &mut Seen) {
        let (entry, answer) = (applied.entry, applied.answer.number);
        let (participant, cents) = (usize::from(entry.participant), u128::from(entry.cents));
        let accepted = answer == ACCEPTED;
        match self.found.take() {
            Some(Found::PurseEntry { purse, stages, arrears }) => {
                let total = purse + cents;
                if accepted {
                    stages.into_iter().for_each(|stage| seen.see(stage));
                    self.rests.remove(&participant);
                }
                let past = answer == PURSE_PASSES_BOUND && total == MOST_PURSE + 1;
                seen.see_if(accepted && arrears, Sight::InArrears);
                seen.see_if(accepted && total == MOST_PURSE, Sight::ToBound);
                seen.see_if(past, Sight::PastBound);
            }
            Some(Found::Settling { drawers }) if accepted => {
                self.settled(entry.period, &drawers, seen);
            }
            Some(Found::LateReceipt { arrears })
                if self.drew.contains(&(entry.period, participant)) =>
            {
                let above = answer == RECEIPT_ABOVE && cents == arrears + 1;
                seen.see_if(accepted, Sight::Late);
                seen.see_if(above, Sight::ACentAbove);
            }
            _ => (),
        }
    }
}

impl Purses {
    fn settled(&mut self, period: u32, drawers: &[Drawer], seen: &mut Seen) {
        let is_barred = |payer: &Payer| payer.purse > 0 && payer.unpaid() > 0 && payer.barred;
        let some_barred = drawers.iter().any(|drawer| is_barred(&drawer.payer));
        for (i, drawer) in drawers.iter().enumerate() {
            let payer = &drawer.payer;
            if payer.drawn() > 0 {
                seen.see_if(some_barred, Sight::BesideBarred);
                self.drew(period, i, drawer, seen);
            } else if is_barred(payer) {
                seen.see(Sight::Barred);
                self.barred.insert(i);
            } else if payer.purse > 0 {
                seen.see_if(payer.payable == 0, Sight::NothingPayable);
                seen.see_if(payer.payable > 0, Sight::PaidByReceipts);
            }
        }
    }

    /// A payer drew in a period.
    fn drew(&mut self, period: u32, i: usize, drawer: &Drawer, seen: &mut Seen) {
        let payer = &drawer.payer;
        let how = payer.purse.cmp(&payer.unpaid());
        seen.see(match how {
            Ordering::Less => Sight::Part,
            Ordering::Equal => Sight::All,
            Ordering::Greater => Sight::More,
        });
        seen.see_if(payer.received > 0, Sight::BesideReceipts);
        seen.see_if(self.rests.remove(&i), Sight::FromRest);
        seen.see_if(self.barred.remove(&i), Sight::Freed);
        seen.see_if(drawer.later_arrears, Sight::LaterArrears);
        seen.see_if(drawer.others_arrears, Sight::OthersArrears);
        if how == Ordering::Greater {
            self.rests.insert(i);
        }
        self.drew.insert((period, i));
    }
}
