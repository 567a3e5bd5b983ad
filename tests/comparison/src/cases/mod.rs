//! Cases reckoned by hand: entries of a book, each with its answer, its payouts and the cents held
//! after it. Each case is a trial and a feed.

mod class_feeds;
pub mod feeds;
mod full_sides;
mod halves;
mod leftovers;
mod limits;
mod older_arrears;
mod purses;
#[cfg(test)]
mod seen;
mod washups;

use crate::Named;
use reckoning::programs::calls;
use reckoning::rules::codec::Entry;
use reckoning::rules::limits::{Limits, DEMONSTRATION, MARKET};
use reckoning::rules::making::Making;
use reckoning::rules::month_a;
use reckoning::rules::refusals::ACCEPTED;

/// An entry and what it must come to.
#[derive(Clone, Debug)]
pub struct Step {
    pub entry: Entry,
    pub answer: u8,
    /// By participant; nothing is paid to those that are left out.
    pub payouts: Vec<u64>,
    pub held: u128,
}

#[derive(Clone, Debug)]
pub struct Case {
    name: String,
    n: u8,
    /// The limits of the books that it is put to as a feed; its trial is in the first of them.
    books: &'static [Limits],
    pub steps: Vec<Step>,
}

/// The letters of the requests (02) that have cases or trials.
pub const REQUESTS: [char; 6] = ['a', 'b', 'c', 'e', 'f', 'g'];

/// The cases of a request, by its letter; there may be none.
pub fn of(request: char) -> Vec<Case> {
    let (subject, cases) = match request {
        'b' => ("energy", vec![halves::cases()]),
        'c' => ("purses", vec![purses::cases(), older_arrears::cases(), vec![feeds::purse()]]),
        'e' => ("washups", vec![washups::cases(), full_sides::cases(), vec![feeds::washup()]]),
        'f' => ("limits", vec![limits::cases(), class_feeds::cases()]),
        'g' => ("leftover cents", vec![leftovers::cases()]),
        _ => ("", vec![]),
    };
    let named = |case: Case| Case { name: format!("of {subject}, {}", case.name), ..case };
    cases.into_iter().flatten().map(named).collect()
}

pub fn every() -> impl Iterator<Item = Case> {
    REQUESTS.into_iter().flat_map(of)
}

/// Those of some cases that are put to a book of some limits, as feeds.
pub fn as_feeds(cases: impl Iterator<Item = Case>, limits: Limits) -> impl Iterator<Item = Named> {
    let cases = cases.filter(move |case| case.books.contains(&limits));
    cases.map(|case| (format!("feed {}", case.name), case.feed()))
}

impl Case {
    /// A case of n participants without entries, for both books.
    fn new(name: impl Into<String>, n: u8) -> Case {
        Case { name: name.into(), n, books: &[MARKET, DEMONSTRATION], steps: Vec::new() }
    }

    fn within(self, books: &'static [Limits]) -> Case {
        Case { books, ..self }
    }

    fn step(mut self, entry: Entry, answer: u8, payouts: Vec<u64>, held: u128) -> Case {
        self.steps.push(Step { entry, answer, payouts, held });
        self
    }

    /// The cents held after the last entry.
    fn held(&self) -> u128 {
        self.steps.last().map_or(0, |step| step.held)
    }

    /// Accepted entries without money: nothing is paid, and as much is held as before.
    fn stand(self, entries: impl IntoIterator<Item = Entry>) -> Case {
        let held = self.held();
        entries.into_iter().fold(self, |case, entry| case.holds(entry, held))
    }

    /// An accepted entry that pays nothing, after which so many cents are held.
    fn holds(self, entry: Entry, held: u128) -> Case {
        self.step(entry, ACCEPTED, Vec::new(), held)
    }

    /// An accepted entry that pays.
    fn pays(self, entry: Entry, payouts: impl Into<Vec<u64>>, held: u128) -> Case {
        self.step(entry, ACCEPTED, payouts.into(), held)
    }

    /// A refused entry, which leaves what is held.
    fn refused(self, entry: Entry, answer: u8) -> Case {
        let held = self.held();
        self.step(entry, answer, Vec::new(), held)
    }

    /// Month A of 01 to its notice: 600 of payer 0 and 334 of payer 2 are payable, retention is 0, 467
    /// and 134, and full claims are 0, 800 and 134.
    fn month_a_to_notice(self, period: u32) -> Case {
        self.stand(month_a::to_notice(period))
    }

    pub fn named_trial(&self) -> Named {
        (format!("trial {}", self.name), self.trial())
    }

    fn trial(&self) -> Vec<u8> {
        let n = u64::from(self.n);
        let book = match self.books[0] {
            MARKET => calls::book(n),
            limits => calls::book_of_limits(&Making::within(limits, n)),
        };
        let applied = self.steps.iter().flat_map(|step| calls::apply(&step.entry, self.n));
        book.into_iter().chain(applied).collect()
    }

    fn feed(&self) -> Vec<u8> {
        let entries = self.steps.iter().flat_map(|step| step.entry.bytes());
        [self.n].into_iter().chain(entries).collect()
    }
}

#[cfg(test)]
mod tests {
    use super::*;
    use crate::judge::judge_listing;
    use reckoning::programs::listing::listing_within;
    use reckoning::rules::book::Book;

    /// Holds a book of some limits to each step of a case, and demand 3 to its listing.
    fn hold(case: &Case, limits: Limits) {
        let mut book = Book::make(&Making::within(limits, case.n.into())).0;
        for (place, step) in case.steps.iter().enumerate() {
            let mut words = vec![9; case.n.into()];
            let answer = book.apply(&step.entry, &mut words).number;
            let mut payouts = step.payouts.clone();
            let left_out = words.len().saturating_sub(payouts.len());
            payouts.extend(vec![if step.answer == ACCEPTED { 0 } else { 9 }; left_out]);
            let found = (answer, words, book.held());
            let name = format!("{}, step {}: {:?}", case.name, place + 1, step.entry);
            assert_eq!(found, (step.answer, payouts, step.held), "{name}");
        }
        let feed = case.feed();
        let judged = judge_listing(limits, &feed, &listing_within(limits, &feed), &mut ());
        assert!(judged.is_ok(), "{}", case.name);
    }

    #[test]
    fn each_case_is_as_reckoned_in_each_of_its_books() {
        for case in every() {
            case.books.iter().for_each(|&limits| hold(&case, limits));
        }
    }

    #[test]
    #[should_panic(expected = "a cent more, step 2")]
    fn a_step_that_is_not_as_reckoned_is_told() {
        let case = Case::new("a cent more", 3).holds(Entry::purse(0, 300), 300);
        hold(&case.holds(Entry::purse(0, 1), 302), MARKET);
    }
}
