//! Books that are made with groups and reserves (02, a): their makings, and months whose amounts differ
//! from those of groups of one.

use crate::coverage::group_kinds::{Reserves, Shape, RESERVES, SHAPES};
use crate::coverage::sights::ALONE;
use crate::coverage::{Place, Request, Seen, Subject, Watch};
use reckoning::programs::observer::{Applied, Made, MadeBy};
use reckoning::rules::book::Book;
use reckoning::rules::codec::{Entry, NOTICE, RECEIPT, SETTLE};
use reckoning::rules::making::Making;
use reckoning::rules::month;
use reckoning::rules::period::Stage;
use reckoning::rules::refusals::*;
use std::collections::BTreeMap;

pub static REQUEST: Request = Request {
    subjects: &[&MAKINGS, &SHAPES, &RESERVES, &GROUPS],
    watch: Some(|| Box::<Groups>::default()),
};

/// The calls that give groups and reserves; `L` gives limits too.
pub static MAKINGS: Subject = Subject {
    name: "makings with groups and reserves",
    rows: Answered::ROWS,
    columns: &["by G", "by L"],
    needed: |place, _, _| place == Place::Trials,
};

pub static GROUPS: Subject = Subject {
    name: "groups",
    rows: Sight::ROWS,
    columns: ALONE,
    needed: |place, row, _| match place {
        Place::Trials => true,
        Place::Months => row == Sight::OtherRow as usize,
        _ => false,
    },
};

sights! {
    /// The answer to a making.
    pub enum Answered of MAKINGS {
        Accepted = "accepted",
        With3 = "refused with 3",
        With4 = "refused with 4",
    }
}

sights! {
    /// What can be seen in books that were made with groups and reserves.
    pub enum Sight of GROUPS {
        ToRefused = "entries to a book refused with 3",
        OtherRow = "settled months with another payable row than groups of one and no reserves",
        WithArrears = "of these with arrears",
        WithRounds = "with rounds",
        Drew = "with cents moved in from a purse",
        Late = "late receipts in them",
        UpToPayable = "receipts up to a payable amount that groups of one would not give",
        ACentAbove = "refused a cent above it",
    }
}

impl Seen {
    /// A settled month in a book that was made so.
    pub fn see_groups(&mut self, making: &Making, other_row: bool) {
        self.see(Shape::of(making.numbers()));
        self.see(Reserves::of(making));
        self.see_if(other_row, Sight::OtherRow);
    }
}

/// Books that are made without groups and reserves do not count.
#[derive(Default)]
struct Groups {
    /// Whether the book was made with groups and reserves, and the answer.
    made: Option<u8>,
    /// What groups of one and no reserves would give, for each month with another payable row.
    rows_of_one: BTreeMap<u32, Vec<u128>>,
    /// The cents in purses before an entry.
    purses: u128,
    /// What a receipt finds, where its period has another payable row.
    receipt: Option<Receipt>,
}

/// A receipt on a period with another payable row.
enum Receipt {
    Late,
    /// Up to so many cents of a payer whose payable amount is another one.
    Most(u128),
}

impl Groups {
    fn receipt(&self, book: &Book, entry: &Entry) -> Option<Receipt> {
        let of_one = self.rows_of_one.get(&entry.period).filter(|_| entry.kind == RECEIPT)?;
        let (period, payer) = (book.periods.get(&entry.period)?, usize::from(entry.participant));
        match &period.stage {
            Stage::Settled { .. } => Some(Receipt::Late),
            Stage::Noticed(notice) if notice.payable.get(payer) != of_one.get(payer) => {
                Some(Receipt::Most(period.most_receipt(payer)))
            }
            _ => None,
        }
    }

    fn noticed(&mut self, book: &Book, number: u32) {
        let period = &book.periods[&number];
        let of_one = month::notice(&period.sums, &Making::alone(book.n as u64)).payable;
        let Stage::Noticed(notice) = &period.stage else {
            return;
        };
        if notice.payable != of_one {
            self.rows_of_one.insert(number, of_one);
        }
    }

    fn settled(&self, book: &Book, number: u32, rounds: u64, seen: &mut Seen) {
        let other_row = self.rows_of_one.contains_key(&number);
        let drew = book.purses.iter().sum::<u128>() < self.purses;
        seen.see_groups(&book.making, other_row);
        seen.see_if(other_row && book.periods.contains_key(&number), Sight::WithArrears);
        seen.see_if(other_row && rounds > 0, Sight::WithRounds);
        seen.see_if(other_row && drew, Sight::Drew);
    }
}

impl Watch for Groups {
    fn made(&mut self, made: &Made, seen: &mut Seen) {
        *self = Groups::default();
        let column = match made.by {
            MadeBy::Listing | MadeBy::B => return,
            MadeBy::G => 0,
            MadeBy::L => 1,
        };
        self.made = Some(made.answer);
        let answer = match made.answer {
            ACCEPTED => Answered::Accepted,
            FIELD_OUTSIDE => Answered::With3,
            _ => Answered::With4,
        };
        seen.see_in(answer, column);
    }

    fn before(&mut self, book: &Book, entry: &Entry) {
        self.purses = book.purses.iter().sum();
        self.receipt = self.receipt(book, entry);
    }

    fn after(&mut self, book: &Book, applied: &Applied, seen: &mut Seen) {
        let (entry, answer) = (applied.entry, applied.answer);
        if self.made.is_none() {
            return;
        }
        match (entry.kind, answer.number) {
            (_, N_REFUSED) => seen.see_if(self.made == Some(FIELD_OUTSIDE), Sight::ToRefused),
            (NOTICE, ACCEPTED) => self.noticed(book, entry.period),
            (SETTLE, ACCEPTED) => self.settled(book, entry.period, answer.rounds, seen),
            (RECEIPT, number) => match self.receipt.take() {
                Some(Receipt::Late) => seen.see_if(number == ACCEPTED, Sight::Late),
                Some(Receipt::Most(most)) => {
                    let cents = u128::from(entry.cents);
                    let above = number == RECEIPT_ABOVE && cents == most + 1;
                    seen.see_if(number == ACCEPTED && cents == most, Sight::UpToPayable);
                    seen.see_if(above, Sight::ACentAbove);
                }
                None => (),
            },
            _ => (),
        }
    }
}
