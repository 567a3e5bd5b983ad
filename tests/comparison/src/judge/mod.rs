//! Judges what another program printed, byte for byte, and by demand 3.

mod accounts;
pub mod demand3;
pub mod lines;

use demand3::Count;
use reckoning::programs::observer::Observer;
use reckoning::programs::{listing, trial};
use reckoning::rules::book::Book;
use reckoning::rules::codec::LAST_KIND;
use reckoning::rules::limits::{Limits, MOST_PARTICIPANTS};
use reckoning::rules::refusals::NUMBERS;

fn shown(line: Option<&&[u8]>) -> String {
    match line {
        None => "no line".into(),
        Some(line) => format!("{:?}", String::from_utf8_lossy(line)),
    }
}

/// The first difference between the reckoned text and the text found.
pub fn first_difference(reckoned: &[u8], found: &[u8]) -> Option<String> {
    difference_after(0, reckoned, found)
}

/// The first difference of two texts that stand behind so many lines.
pub fn difference_after(lines: u64, reckoned: &[u8], found: &[u8]) -> Option<String> {
    if reckoned == found {
        return None;
    }
    let left: Vec<&[u8]> = reckoned.split_inclusive(|&byte| byte == b'\n').collect();
    let right: Vec<&[u8]> = found.split_inclusive(|&byte| byte == b'\n').collect();
    let mut at = 0;
    while left.get(at) == right.get(at) {
        at += 1;
    }
    let (left, right) = (shown(left.get(at)), shown(right.get(at)));
    Some(format!("line {}: reckoned {left}, found {right}", lines + at as u64 + 1))
}

/// What the listing found for a feed came to, in a book of some limits, or how it differs. The
/// reckoning's own listing goes on under the eyes of an observer.
pub fn judge_listing(
    limits: Limits,
    feed: &[u8],
    found: &[u8],
    observer: &mut impl Observer,
) -> Result<Count, String> {
    let by_demand_3 = demand3::check_within(limits, feed, found);
    let reckoned = listing::lines((limits, Book::make), feed, observer);
    match (first_difference(&reckoned, found), by_demand_3) {
        (None, result) => result,
        (Some(difference), Ok(_)) => Err(difference),
        (Some(difference), Err(what)) => Err(format!("{difference}; {what}")),
    }
}

/// A count for each kind of entry; there is no kind 0.
pub type ByKind = [u64; LAST_KIND as usize + 1];

/// What a trial's lines came to.
#[derive(Clone, Debug)]
pub struct Calls {
    pub calls: u64,
    /// How often each answer was given.
    pub answers: [u64; NUMBERS],
    /// How many apply calls were answered with so many rounds.
    pub rounds: [u64; MOST_PARTICIPANTS as usize + 1],
    /// How many entries of each kind were read, and how many written.
    pub read: ByKind,
    pub written: ByKind,
}

/// Counts the lines that the reckoning gives for a trial.
fn count(lines: &[u8]) -> Calls {
    let (read, written) = Default::default();
    let rounds = [0; MOST_PARTICIPANTS as usize + 1];
    let mut calls = Calls { calls: 0, answers: [0; NUMBERS], rounds, read, written };
    let text = std::str::from_utf8(lines).expect("text");
    for line in text.lines() {
        let words: Vec<&str> = line.split(' ').collect();
        let number = |place: usize| words[place].parse::<usize>().expect("a number");
        calls.calls += 1;
        calls.answers[number(1)] += 1;
        match (words[0], number(1)) {
            ("apply", _) => calls.rounds[number(2)] += 1,
            // The kind stands behind the answer and a place or a count.
            ("read", 0) => calls.read[number(3)] += 1,
            ("write", 0) => calls.written[number(3)] += 1,
            _ => (),
        }
    }
    calls
}

/// What the lines found for a trial came to, or how they differ. The reckoning's own trial goes on under
/// the eyes of an observer.
pub fn judge_trial(
    calls: &[u8],
    found: &[u8],
    observer: &mut impl Observer,
) -> Result<Calls, String> {
    let reckoned = trial::lines(Book::make, calls, observer);
    match first_difference(&reckoned, found) {
        Some(difference) => Err(difference),
        None => Ok(count(&reckoned)),
    }
}
