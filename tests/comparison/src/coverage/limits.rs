//! Limits (02, f): makings by `L`, books of limits that are not the market's, and openings about the
//! period limit.

use crate::coverage::sights::ALONE;
use crate::coverage::{Place, Request, Seen, Subject, Watch};
use reckoning::programs::observer::{Applied, Made, MadeBy};
use reckoning::rules::book::Book;
use reckoning::rules::codec::{Entry, OPEN, RECEIPT, SETTLE};
use reckoning::rules::limits::{Limits, MARKET, MOST_PARTICIPANTS, MOST_PERIODS};
use reckoning::rules::making::Making;
use reckoning::rules::period::Period;
use reckoning::rules::refusals::*;
use std::collections::BTreeSet;

pub static REQUEST: Request = Request {
    subjects: &[&REASONS, &LIMITS, &OPENINGS],
    watch: Some(|| Box::<Watched>::default()),
};

/// Counted alone, and where a group or a reserve is outside its values too.
pub static REASONS: Subject = Subject {
    name: "makings refused with 4 for one reason",
    rows: Reason::ROWS,
    columns: &["alone", "with 3"],
    needed: |place, _, _| place == Place::Trials,
};

pub static LIMITS: Subject = Subject {
    name: "limits",
    rows: Sight::ROWS,
    columns: ALONE,
    needed: |place, _, _| place == Place::Trials,
};

/// By period limit. Listings show the one of their book.
pub static OPENINGS: Subject = Subject {
    name: "openings by period limit",
    rows: Opening::ROWS,
    columns: &["1", "2", "3", "4", "5", "6", "7", "8", "9", "10", "11", "12"],
    needed: |place, _, column| match place {
        Place::Trials => true,
        Place::Listings(limits) => column as u64 + 1 == limits.periods,
        _ => false,
    },
};

sights! {
    pub enum Reason of REASONS {
        NOfZero = "n of 0",
        NAboveLimit = "n above the participant limit, and at most 64",
        NAboveMarket = "n above 64",
        NoParticipants = "participant limit 0",
        ParticipantsAbove = "participant limit above 64",
        NoPeriods = "period limit 0",
        PeriodsAbove = "period limit above 12",
    }
}

sights! {
    pub enum Sight of LIMITS {
        GroupOrReserve = "refused with 3, where the limits are not the market's",
        NAtLimit = "accepted: n at the participant limit, which is not the market's",
        NBelowLimit = "accepted: n one below it",
        OneParticipant = "accepted: participant limit 1",
        MostParticipants = "accepted: participant limit 64",
        OnePeriod = "accepted: period limit 1",
        MostPeriods = "accepted: period limit 12",
        ToRefused = "entries to a book refused for its limits",
        PastLimitBeforeInB = "openings that the book before would refuse with 7, in a book by B",
        PastLimitBeforeInG = "such openings in a book by G",
        PastLimitBeforeInL = "such openings in a book by L",
        Settled = "settled months in books of other limits than the market's",
        WithArrears = "of these with arrears",
        WhileFull = "of these in a full book",
        Late = "late receipts in such books",
    }
}

sights! {
    pub enum Opening of OPENINGS {
        Reached = "accepted, and the book is full",
        Refused = "refused with 7",
        Again = "accepted after 7 had refused the same period",
        NotAbove = "refused with 6, where 7 would hold too",
    }
}

/// The one reason for which a making is refused with 4, if there is just one.
fn reason(making: &Making) -> Option<Reason> {
    let (n, Limits { participants, periods }) = (making.n, making.limits);
    let stands = (1..=MOST_PARTICIPANTS).contains(&participants);
    let reasons = [
        (n == 0, Reason::NOfZero),
        (stands && n > participants && n <= MOST_PARTICIPANTS, Reason::NAboveLimit),
        (n > MOST_PARTICIPANTS, Reason::NAboveMarket),
        (participants == 0, Reason::NoParticipants),
        (participants > MOST_PARTICIPANTS, Reason::ParticipantsAbove),
        (periods == 0, Reason::NoPeriods),
        (periods > MOST_PERIODS, Reason::PeriodsAbove),
    ];
    let mut held = reasons.into_iter().filter(|(holds, _)| *holds).map(|(_, reason)| reason);
    held.next().filter(|_| held.next().is_none())
}

/// Whether a group number or a reserve is outside its values, whatever n and the limits are.
fn has_3(making: &Making) -> bool {
    let n = making.n.clamp(1, MOST_PARTICIPANTS);
    let refusal = Making { n, limits: MARKET, ..making.clone() }.refusal();
    refusal == Some(FIELD_OUTSIDE)
}

/// What is seen of one making by `L`.
fn see_making(making: &Making, answer: u8, seen: &mut Seen) {
    let (n, limits) = (making.n, making.limits);
    match answer {
        N_REFUSED => {
            let column = usize::from(has_3(making));
            reason(making).into_iter().for_each(|reason| seen.see_in(reason, column));
        }
        ACCEPTED => {
            let Limits { participants, periods } = limits;
            let below = participants < MOST_PARTICIPANTS;
            seen.see_if(below && n == participants, Sight::NAtLimit);
            seen.see_if(below && n + 1 == participants, Sight::NBelowLimit);
            seen.see_if(participants == 1, Sight::OneParticipant);
            seen.see_if(participants == MOST_PARTICIPANTS, Sight::MostParticipants);
            seen.see_if(periods == 1, Sight::OnePeriod);
            seen.see_if(periods == MOST_PERIODS, Sight::MostPeriods);
        }
        _ => seen.see_if(limits != MARKET, Sight::GroupOrReserve),
    }
}

/// Watches the books of a trial or the one of a listing.
#[derive(Default)]
struct Watched {
    /// The sight of an opening past the period limit of the book before, and that limit.
    past_limit_before: Option<(Sight, u64)>,
    /// Whether the book was refused for its limits.
    refused: bool,
    /// The periods that 7 refused in this book.
    refused_periods: BTreeSet<u32>,
    /// What an entry finds: whether the book is full, how many periods are in it, and whether the one
    /// that it names is settled.
    full: bool,
    periods: u64,
    settled: bool,
}

impl Watched {
    fn opening(&mut self, limit: u64, period: u32, answer: u8, seen: &mut Seen) {
        let column = limit as usize - 1;
        match answer {
            ACCEPTED => {
                if self.refused_periods.remove(&period) {
                    seen.see_in(Opening::Again, column);
                }
                if self.periods + 1 == limit {
                    seen.see_in(Opening::Reached, column);
                }
                let past = self.past_limit_before.filter(|&(_, before)| self.periods >= before);
                past.into_iter().for_each(|(sight, _)| seen.see(sight));
            }
            PERIODS_AT_LIMIT => {
                seen.see_in(Opening::Refused, column);
                self.refused_periods.insert(period);
            }
            NOT_ABOVE_HIGHEST if self.full => seen.see_in(Opening::NotAbove, column),
            _ => (),
        }
    }
}

impl Watch for Watched {
    fn made(&mut self, made: &Made, seen: &mut Seen) {
        let sight = match made.by {
            MadeBy::Listing => None,
            MadeBy::B => Some(Sight::PastLimitBeforeInB),
            MadeBy::G => Some(Sight::PastLimitBeforeInG),
            MadeBy::L => Some(Sight::PastLimitBeforeInL),
        };
        *self = Watched {
            past_limit_before: sight.map(|sight| (sight, made.before.limits().periods)),
            refused: made.answer == N_REFUSED && !made.making.limits.stand(),
            ..Watched::default()
        };
        if made.by == MadeBy::L {
            see_making(made.making, made.answer, seen);
        }
    }

    fn before(&mut self, book: &Book, entry: &Entry) {
        (self.full, self.periods) = (book.is_full(), book.periods.len() as u64);
        self.settled = book.periods.get(&entry.period).is_some_and(Period::is_settled);
    }

    fn after(&mut self, book: &Book, applied: &Applied, seen: &mut Seen) {
        let (entry, answer) = (applied.entry, applied.answer.number);
        let other_limits = book.limits() != MARKET;
        seen.see_if(self.refused && answer == N_REFUSED, Sight::ToRefused);
        match (entry.kind, answer) {
            (OPEN, _) => self.opening(book.limits().periods, entry.period, answer, seen),
            (SETTLE, ACCEPTED) if other_limits => {
                seen.see(Sight::Settled);
                seen.see_if(book.periods.contains_key(&entry.period), Sight::WithArrears);
                seen.see_if(self.full, Sight::WhileFull);
            }
            (RECEIPT, ACCEPTED) => seen.see_if(other_limits && self.settled, Sight::Late),
            _ => (),
        }
    }
}

#[cfg(test)]
mod tests {
    use super::*;

    /// What is seen of one making by `L`: reasons for 4 with their column, and other sights.
    fn seen_of(
        n: u64,
        participants: u64,
        periods: u64,
        group: u8,
    ) -> (Vec<(Reason, u8)>, Vec<Sight>) {
        let mut making = Making::within(Limits { participants, periods }, n);
        making.groups[0] = group;
        let mut seen = Seen::default();
        see_making(&making, Book::make(&making).1, &mut seen);
        let reasons = Reason::ALL.iter().flat_map(|&reason| [(reason, 0), (reason, 1)]);
        let is_seen =
            |&(reason, column): &(Reason, u8)| seen.by_column(reason)[usize::from(column)] > 0;
        let sights = Sight::ALL.iter().copied().filter(|&sight| seen.of(sight) > 0);
        (reasons.filter(is_seen).collect(), sights.collect())
    }

    #[test]
    fn a_making_is_seen_by_the_one_reason_that_it_has() {
        let for_4 = |n, participants, periods, group| seen_of(n, participants, periods, group).0;
        assert_eq!(for_4(0, 8, 3, 0), [(Reason::NOfZero, 0)]);
        assert_eq!(for_4(9, 8, 3, 0), [(Reason::NAboveLimit, 0)]);
        assert_eq!(for_4(65, 8, 3, 0), [(Reason::NAboveMarket, 0)]);
        assert_eq!(for_4(3, 0, 3, 0), [(Reason::NoParticipants, 0)]);
        assert_eq!(for_4(3, 65, 3, 0), [(Reason::ParticipantsAbove, 0)]);
        assert_eq!(for_4(3, 8, 0, 0), [(Reason::NoPeriods, 0)]);
        assert_eq!(for_4(3, 8, 13, 0), [(Reason::PeriodsAbove, 0)]);
        assert_eq!(for_4(9, 8, 3, 64), [(Reason::NAboveLimit, 1)]);
        assert_eq!(for_4(3, 8, 13, 64), [(Reason::PeriodsAbove, 1)]);
        assert_eq!(for_4(9, 8, 13, 0), []);
        assert_eq!(for_4(0, 0, 3, 0), []);
    }

    #[test]
    fn a_making_is_seen_by_its_limits() {
        let others = |n, participants, periods, group| seen_of(n, participants, periods, group).1;
        assert_eq!(others(3, 8, 3, 64), [Sight::GroupOrReserve]);
        assert_eq!(others(8, 8, 3, 0), [Sight::NAtLimit]);
        assert_eq!(others(7, 8, 3, 0), [Sight::NBelowLimit]);
        assert_eq!(others(1, 1, 1, 0), [Sight::NAtLimit, Sight::OneParticipant, Sight::OnePeriod]);
        assert_eq!(others(64, 64, 12, 0), [Sight::MostParticipants, Sight::MostPeriods]);
        assert_eq!(others(3, 8, 3, 0), []);
    }
}
