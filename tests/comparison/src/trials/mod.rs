//! Trials: the cases by hand of each request, and calls from fixed seeds, aimed by a copy of the book.

mod any_calls;
pub mod groups;
mod leftovers;
mod limits;
mod purses;
mod washups;

pub use any_calls::trial;

use crate::cases;
use crate::generate::makings::{self, Case};
use crate::generate::random::Random;
use crate::generate::rounds;
use crate::Named;
use reckoning::programs::calls;
use reckoning::rules::book::Book;
use reckoning::rules::limits::MOST_PERIODS;
use reckoning::rules::making::Making;

/// How many trials of calls of every sort there are.
const TRIALS: u64 = 150;
/// How many months a trial of rounds has.
const MONTHS_OF_ROUNDS: u64 = 3;

/// Trials from the first seeds: the request that they are for, their name, how many there are, and the
/// trial for a seed.
type FromSeeds = (char, &'static str, u64, fn(u64) -> Vec<u8>);

const FROM_SEEDS: [FromSeeds; 8] = [
    // Each shape with each kind of reserves three times.
    ('a', "trial of groups", 120, groups::trial_of_groups),
    ('a', "trial of rounds in groups", 30, groups::trial_of_rounds_in_groups),
    ('c', "trial of purses", 60, purses::trial_of_purses),
    ('e', "trial of washups", 60, washups::trial_of_washups),
    // Each period limit three times.
    ('f', "trial of openings", 3 * MOST_PERIODS, limits::trial_of_openings),
    ('f', "trial of limits", 60, limits::trial_of_limits),
    ('g', "trial of leftover cents", 60, leftovers::trial_of_leftovers),
    ('g', "trial of rounds", 40, trial_of_rounds),
];

fn from_seeds(name: &str, count: u64, trial: fn(u64) -> Vec<u8>) -> Vec<Named> {
    (0..count).map(|seed| (format!("{name} seed {seed}"), trial(seed))).collect()
}

/// Trials of calls of every sort, to books that are made with n alone.
pub fn of_every_sort() -> Vec<Named> {
    from_seeds("trial", TRIALS, trial)
}

/// The makings by hand of a request, as trials.
fn of_makings(request: char) -> Vec<Named> {
    let (name, cases): (&str, Vec<Case>) = match request {
        'a' => ("trial making", makings::of_groups()),
        'f' => ("trial of limits, making", makings::of_limits()),
        _ => return Vec::new(),
    };
    cases.iter().map(|case| (format!("{name} {}", case.name), case.trial())).collect()
}

/// The trials of a request (02), by its letter: those by hand, then those from seeds.
pub fn of(request: char) -> Vec<Named> {
    let mut all: Vec<Named> = cases::of(request).iter().map(cases::Case::named_trial).collect();
    all.extend(of_makings(request));
    for (_, name, count, trial) in FROM_SEEDS.into_iter().filter(|seeds| seeds.0 == request) {
        all.extend(from_seeds(name, count, trial));
    }
    all
}

pub fn of_requests() -> impl Iterator<Item = Named> {
    cases::REQUESTS.into_iter().flat_map(of)
}

/// A call that makes a book, and months in it whose settlement runs many rounds.
fn months_of_rounds(mut random: Random, call: Vec<u8>, making: &Making, months: u64) -> Vec<u8> {
    let mut book = Book::make(making).0;
    let months = (0..months).flat_map(|_| rounds::month(&mut random, &mut book));
    call.into_iter().chain(months.flat_map(|it| calls::apply(&it, making.n as u8))).collect()
}

/// A trial of months whose settlement runs many rounds, in a book that is made with n alone.
fn trial_of_rounds(seed: u64) -> Vec<u8> {
    let mut random = Random::of(seed, 61);
    let n = random.pick(&[4, 5, 6, 8, 12, 16, 24, 63, 64]);
    months_of_rounds(random, calls::book(n), &Making::alone(n), MONTHS_OF_ROUNDS)
}
