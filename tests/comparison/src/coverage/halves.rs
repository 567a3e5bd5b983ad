//! Exact halves of energy amounts (02, b): which way they went, on which side, and at the bound of a
//! side's total.

use crate::coverage::sights::SIDES;
use crate::coverage::{Place, Request, Seen, Subject, Watch};
use reckoning::programs::observer::Applied;
use reckoning::rules::book::{Book, MOST_TOTAL};
use reckoning::rules::codec::{Entry, ENERGY};
use reckoning::rules::month::{self, Sums};
use reckoning::rules::refusals::{ACCEPTED, TOTAL_PASSES_BOUND};

pub static REQUEST: Request =
    Request { subjects: &[&HALVES], watch: Some(|| Box::<Halves>::default()) };

pub static HALVES: Subject =
    Subject { name: "exact halves", rows: Half::ROWS, columns: SIDES, needed };

sights! {
    /// An energy entry of an exact half.
    pub enum Half of HALVES {
        Down = "went down",
        Up = "went up",
        DownToBound = "went down to the bound of the side, which a cent more would have passed",
        DownPastBound = "refused with 11 for one cent, the lower cent being even",
        UpPastBound = "refused with 11 for one cent, the upper cent being even",
    }
}

fn needed(place: Place, row: usize, _: usize) -> bool {
    match place {
        Place::Trials | Place::Listings(_) => true,
        Place::Soak(_) => row == Half::Down as usize || row == Half::Up as usize,
        _ => false,
    }
}

/// Such an entry, for a period whose sums it is not yet in.
#[derive(Clone, Copy, Debug)]
struct Found {
    goes_up: bool,
    /// The side's total with it.
    total: u128,
}

impl Found {
    fn of(entry: &Entry, sums: &Sums) -> Option<Found> {
        let (quantity, price) = (entry.quantity, entry.price);
        if entry.kind != ENERGY || !entry.in_values() || !month::is_half(quantity, price) {
            return None;
        }
        let cents = month::energy_cents(quantity, price);
        let exact = u128::from(quantity) * u128::from(price) * 115;
        Some(Found { goes_up: cents * 100_000 > exact, total: sums.total(entry.side) + cents })
    }

    fn sights(self, answer: u8) -> Vec<Half> {
        let past = self.total == MOST_TOTAL + 1;
        match (answer, self.goes_up) {
            (ACCEPTED, true) => vec![Half::Up],
            (ACCEPTED, false) if self.total == MOST_TOTAL => vec![Half::Down, Half::DownToBound],
            (ACCEPTED, false) => vec![Half::Down],
            (TOTAL_PASSES_BOUND, true) if past => vec![Half::UpPastBound],
            (TOTAL_PASSES_BOUND, false) if past => vec![Half::DownPastBound],
            _ => vec![],
        }
    }
}

#[derive(Default)]
struct Halves {
    found: Option<Found>,
}

impl Watch for Halves {
    fn before(&mut self, book: &Book, entry: &Entry) {
        let period = book.periods.get(&entry.period);
        self.found = period.and_then(|period| Found::of(entry, &period.sums));
    }

    fn after(&mut self, _: &Book, applied: &Applied, seen: &mut Seen) {
        if let Some(found) = self.found.take() {
            let side = usize::from(applied.entry.side);
            let sights = found.sights(applied.answer.number);
            sights.into_iter().for_each(|sight| seen.see_in(sight, side));
        }
    }
}

#[cfg(test)]
mod tests {
    use super::*;
    use Half::*;

    /// What is seen of one energy entry on a side with so much room, answered with a number.
    fn seen_of(entry: Entry, room: u128, answer: u8) -> Vec<Half> {
        let mut sums = Sums::new(2);
        sums.add(0, entry.side, 5, MOST_TOTAL - room);
        Found::of(&entry, &sums).map_or(vec![], |found| found.sights(answer))
    }

    /// 30,000 comes to 34 cents and 10,000 to 12.
    #[test]
    fn each_half_is_seen_by_its_way_and_the_room() {
        for side in [0, 1] {
            let [down, up] = [300, 100].map(|price| Entry::energy(1, 1, side, 100, price));
            assert_eq!(seen_of(down, 35, 0), [Down]);
            assert_eq!(seen_of(down, 34, 0), [Down, DownToBound]);
            assert_eq!(seen_of(down, 33, 11), [DownPastBound]);
            assert_eq!(seen_of(up, 12, 0), [Up]);
            assert_eq!(seen_of(up, 11, 11), [UpPastBound]);
        }
    }

    #[test]
    fn nothing_else_is_seen() {
        let half = Entry::energy(1, 1, 0, 100, 300);
        for (entry, room, answer) in [
            (half, 32, 11),
            (half, 34, 12),
            (Entry::energy(1, 1, 0, 100, 299), 100, 0),
            (Entry::energy(1, 1, 0, 100, 200), 100, 0),
            (Entry::energy(1, 1, 2, 100, 300), 100, 0),
            (Entry::amount(1, 1, 0, 0, 34), 34, 0),
        ] {
            assert_eq!(seen_of(entry, room, answer), [], "{entry:?}");
        }
    }
}
