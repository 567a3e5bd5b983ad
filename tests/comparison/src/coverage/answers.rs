//! Answers, n, and the kinds of entry that were read and written.

use crate::coverage::sights::ALONE;
use crate::coverage::{Place, Request, Rows, Subject};
use reckoning::rules::codec::LAST_KIND;
use reckoning::rules::limits::MOST_PARTICIPANTS;
use reckoning::rules::refusals::*;

pub static REQUEST: Request =
    Request { subjects: &[&ANSWERS, &PARTICIPANTS, &READ, &WRITTEN, &ROUNDS], watch: None };

/// No feed can lend too few payout words. The entries of a soak can all be read, and 64 participants
/// are all that there are.
pub static ANSWERS: Subject = Subject {
    name: "answers",
    rows: Rows::Numbered(NUMBERS),
    columns: ALONE,
    needed: |place, number, _| match place {
        Place::Trials => true,
        Place::Listings(_) => number != usize::from(TOO_LITTLE_LENT),
        Place::Soak(n) => {
            let none_above = u64::from(n) == MOST_PARTICIPANTS;
            number >= usize::from(NOT_ABOVE_HIGHEST)
                && !(none_above && number == usize::from(NO_PARTICIPANT))
        }
        _ => false,
    },
};

/// The feeds of n: 0, 1 to 6, about the participant limit, the market's and the largest.
pub static PARTICIPANTS: Subject = Subject {
    name: "feeds by n",
    rows: Rows::Numbered(u8::MAX as usize + 1),
    columns: ALONE,
    needed: |place, n, _| match place {
        Place::Listings(limits) => {
            let (n, most) = (n as u64, limits.participants);
            n <= 6 || n.abs_diff(most) <= 1 || n == MOST_PARTICIPANTS || n == u64::from(u8::MAX)
        }
        _ => false,
    },
};

fn kind_needed(place: Place, kind: usize, _: usize) -> bool {
    place == Place::Trials && kind > 0
}

const KINDS: Rows = Rows::Numbered(LAST_KIND as usize + 1);

pub static READ: Subject =
    Subject { name: "entries read by kind", rows: KINDS, columns: ALONE, needed: kind_needed };

pub static WRITTEN: Subject =
    Subject { name: "entries written by kind", rows: KINDS, columns: ALONE, needed: kind_needed };

/// Apply calls by the rounds that they ran; only settlements run some.
pub static ROUNDS: Subject = Subject {
    name: "apply calls by rounds",
    rows: Rows::Numbered(MOST_PARTICIPANTS as usize + 1),
    columns: ALONE,
    needed: |place, rounds, _| place == Place::Trials && rounds <= 5,
};
