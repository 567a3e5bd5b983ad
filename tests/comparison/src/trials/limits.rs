//! Trials of books of any limits (02, f): books of each period limit that are opened to it and beyond,
//! and whole months in books of random limits.

use crate::generate::call_maker::Maker;
use crate::generate::groupings;
use crate::generate::makings::spoilt::{any_limits, any_n, any_refused, any_refused_with_4};
use reckoning::programs::calls;
use reckoning::rules::codec::Entry;
use reckoning::rules::limits::{Limits, DEMONSTRATION, MARKET, MOST_PARTICIPANTS, MOST_PERIODS};
use reckoning::rules::making::Making;
use reckoning::rules::period::Stage;

/// How often a book is opened to its limit, and how many books a trial of months makes.
const TURNS: u64 = 2;
const BOOKS: u64 = 3;

impl Maker {
    fn open(&mut self, period: u32) {
        self.apply(Entry::open(period));
    }

    /// Opens periods until the book is full, and brings them to any stage.
    fn fill(&mut self) {
        while !self.aim.book.is_full() {
            let number = self.opened().expect("room for a period");
            match self.aim.random.below(3) {
                0 => (),
                1 => self.notice(number),
                _ => self.rest_of_month(number),
            }
        }
    }

    /// In a full book: an opening for 7, and others for 6, which comes before it.
    fn open_beyond(&mut self) {
        let highest = self.aim.book.highest;
        [highest + 1, highest, 0, highest + 1].into_iter().for_each(|period| self.open(period));
    }

    /// The oldest period is settled and paid in full, so that it leaves.
    fn oldest_leaves(&mut self) {
        let number = *self.aim.book.periods.keys().next().expect("a period in the book");
        while let Some(period) = self.aim.book.periods.get(&number) {
            let entry = match period.stage {
                Stage::BeforeNotice => self.aim.close(number),
                Stage::Noticed(_) => Entry::settle(number),
                Stage::Settled { .. } => {
                    let payer = self.aim.payers(number)[0];
                    let arrears = self.aim.book.periods[&number].arrears_of(payer);
                    Entry::receipt(number, payer as u8, arrears as u64)
                }
            };
            self.apply(entry);
        }
    }

    /// Opens the book to its limit and beyond; once a period left, the one that was 7 is accepted.
    fn openings(&mut self) {
        self.fill();
        self.open_beyond();
        let refused = self.aim.book.highest + 1;
        self.oldest_leaves();
        self.open(refused);
        self.open_beyond();
    }

    /// Refused makings, and some entries to each.
    fn refused_makings(&mut self, right: &Making) {
        let random = &mut self.aim.random;
        let by_limits = [any_refused_with_4(random, right), any_refused_with_4(random, right)];
        let by_others = any_refused(random, right);
        for refused in by_limits.into_iter().chain([by_others]) {
            self.make_limited(&refused);
            self.any_entries(0, 6);
        }
    }

    /// A book in the place of the one before, by each call in turn; as many periods as it takes.
    fn another_book(&mut self, n: u64, turn: u64) {
        let in_groups = groupings::any_making(&mut self.aim.random, n);
        match turn % 3 {
            0 => self.make_by(calls::book(n), &Making::alone(n)),
            1 => self.make(&in_groups),
            _ => {
                let periods = self.aim.random.between(3, MOST_PERIODS);
                self.make_limited(&Making { limits: Limits { periods, ..MARKET }, ..in_groups });
            }
        }
        self.openings();
    }
}

/// The trial for a seed of a book that is opened to its limit and beyond. Seeds take period limits in
/// turn.
pub fn trial_of_openings(seed: u64) -> Vec<u8> {
    let mut maker = Maker::new(seed, 54);
    let random = &mut maker.aim.random;
    let n = random.pick(&[1, 2, 3, 4, 6]);
    let participants = random.between(n, MOST_PARTICIPANTS);
    let limits = Limits { participants, periods: seed % MOST_PERIODS + 1 };
    let making = groupings::in_groups_or_alone(random, (1, 2), limits, n);
    maker.make_limited(&making);
    for _ in 0..TURNS {
        maker.openings();
    }
    maker.bytes
}

/// The trial for a seed of whole months in books of random limits, with refused makings between.
pub fn trial_of_limits(seed: u64) -> Vec<u8> {
    let mut maker = Maker::new(seed, 53);
    for turn in 0..BOOKS {
        let random = &mut maker.aim.random;
        let limits = any_limits(random);
        let n = any_n(random, limits);
        let making = groupings::in_groups_or_alone(random, (1, 2), limits, n);
        maker.make_limited(&making);
        maker.month();
        maker.month();
        maker.any_entries(0, 60);
        maker.another_book(n, seed + turn);
        maker.refused_makings(&making);
    }
    maker.ended_within(&calls::book_of_limits(&Making::within(DEMONSTRATION, 3)))
}
