//! Lists that a book of some limits accepts throughout (02, f), which are drawn under these eyes.

use crate::coverage::sights::ALONE;
use crate::coverage::{Place, Request, Seen, Subject, Watch};
use reckoning::programs::observer::Applied;
use reckoning::rules::book::Book;
use reckoning::rules::codec::{Entry, OPEN, RECEIPT, SETTLE, WASHUP};
use reckoning::rules::limits::DEMONSTRATION;
use reckoning::rules::making::Making;

pub static REQUEST: Request = Request { subjects: &[&LISTS], watch: None };

/// The books of feeds have groups of one and no reserves, and feeds lend no payout words.
pub static LISTS: Subject = Subject {
    name: "lists with the same payouts",
    rows: Sight::ROWS,
    columns: ALONE,
    needed: |place, row, _| match place {
        Place::Lists => true,
        Place::ListedLists => row < Sight::GroupsBeyond as usize,
        _ => false,
    },
};

sights! {
    pub enum Sight of LISTS {
        OfClass = "lists of a demonstration book",
        Filled = "lists that reach the period limit",
        Reopened = "lists that open a period after one left the full book",
        Settlements = "settlements that pay",
        WithArrears = "of these with arrears",
        WithRounds = "settlements with rounds",
        PaidWhileFull = "payouts in a full book",
        Late = "late receipts that pay",
        Draws = "settlements that draw on a purse",
        Washups = "washups",
        GroupsBeyond = "lists with groups from the participant limit on",
        ReservesBeyond = "lists with reserves of such groups",
        WordsBeyond = "entries with more payout words than the participant limit",
    }
}

/// Watches one list.
#[derive(Default)]
pub struct Lists {
    /// Whether the book was full before an entry, and the cents in purses.
    full: bool,
    purses: u128,
    /// Whether the period limit was reached, a period left while it was, and one was opened after that.
    filled: bool,
    left: bool,
    reopened: bool,
}

impl Lists {
    pub fn new(making: &Making, seen: &mut Seen) -> Lists {
        let most = making.limits.participants;
        let beyond = || making.numbers().iter().filter(|&&group| u64::from(group) >= most);
        let with_reserve = |group: &u8| making.reserves[usize::from(*group)] > 0;
        seen.see_if(making.limits == DEMONSTRATION, Sight::OfClass);
        seen.see_if(beyond().next().is_some(), Sight::GroupsBeyond);
        seen.see_if(beyond().any(with_reserve), Sight::ReservesBeyond);
        Lists::default()
    }
}

impl Watch for Lists {
    fn before(&mut self, book: &Book, _: &Entry) {
        (self.full, self.purses) = (book.is_full(), book.purses.iter().sum());
    }

    fn after(&mut self, book: &Book, applied: &Applied, seen: &mut Seen) {
        let Applied { entry, answer, words } = *applied;
        let pays = words[..book.n].iter().any(|&cents| cents > 0);
        seen.see_if(words.len() as u64 > book.limits().participants, Sight::WordsBeyond);
        seen.see_if(pays && self.full, Sight::PaidWhileFull);
        match entry.kind {
            OPEN => {
                seen.see_if(book.is_full() && !self.filled, Sight::Filled);
                seen.see_if(self.left && !self.reopened, Sight::Reopened);
                (self.filled, self.reopened) = (self.filled || book.is_full(), self.left);
            }
            SETTLE => {
                let stays = book.periods.contains_key(&entry.period);
                seen.see_if(pays, Sight::Settlements);
                seen.see_if(pays && stays, Sight::WithArrears);
                seen.see_if(answer.rounds > 0, Sight::WithRounds);
                seen.see_if(book.purses.iter().sum::<u128>() < self.purses, Sight::Draws);
            }
            // Only late receipts pay.
            RECEIPT => seen.see_if(pays, Sight::Late),
            WASHUP => seen.see(Sight::Washups),
            _ => (),
        }
        self.left |= self.full && !book.is_full();
    }
}
