//! Feed C: for each of the refusals that are given before an entry's period is looked at, a feed
//! of entries that get it; and one of accepted amounts, which these are measured against.
//!
//! Of these refusals 5 cannot come from a feed, since the listing lends enough words.

use crate::feed::N;
use comparison::generate::random::Random;
use reckoning::rules::book::Book;
use reckoning::rules::codec::Entry;
use reckoning::rules::limits::MOST_PERIODS;
use reckoning::rules::refusals::{
    ACCEPTED, NOT_ABOVE_HIGHEST, N_REFUSED, PERIODS_AT_LIMIT, PERIOD_NOT_IN_BOOK,
};

const ENTRIES: usize = 1_000_000;

/// A feed whose entries get one answer, all but the few that open its periods.
pub struct Alike {
    pub name: &'static str,
    pub n: u8,
    pub entries: Vec<Entry>,
    answer: u8,
    random: Random,
    book: Book,
}

impl Alike {
    fn new(name: &'static str, n: u8, answer: u8) -> Alike {
        let book = Book::alone(n.into());
        Alike { name, n, entries: vec![], answer, random: Random::new(2), book }
    }

    fn take(&mut self, entry: Entry, expected: u8) {
        let answer = self.book.apply(&entry, &mut [0; N as usize]).number;
        assert_eq!(answer, expected, "{entry:?}");
        self.entries.push(entry);
    }

    fn opens(mut self, periods: impl Iterator<Item = u32>) -> Alike {
        periods.for_each(|period| self.take(Entry::open(period), ACCEPTED));
        self
    }

    /// Entries with the feed's answer, until the feed has so many.
    fn up_to(mut self, count: usize, entry: impl Fn(&mut Random) -> Entry) -> Alike {
        while self.entries.len() < count {
            let next = entry(&mut self.random);
            self.take(next, self.answer);
        }
        self
    }
}

fn amount(random: &mut Random, period: u32) -> Entry {
    let (participant, side) = (random.below(N.into()) as u8, random.below(2) as u8);
    let tier = if side == 0 { 0 } else { random.between(1, 5) as u8 };
    Entry::amount(period, participant, side, tier, random.between(1, 1_000_000))
}

/// An entry of any kind but an opening.
fn naming(random: &mut Random, period: u32) -> Entry {
    let participant = random.below(N.into()) as u8;
    match random.below(5) {
        0 => Entry::energy(period, participant, 1, random.below(1_000_000) as u32, 10_000),
        1 => amount(random, period),
        2 => Entry::notice(period),
        3 => Entry::receipt(period, participant, random.between(1, 1_000_000)),
        _ => Entry::settle(period),
    }
}

/// Amounts of one period.
pub fn accepted() -> Alike {
    let feed = Alike::new("amounts accepted", N, ACCEPTED);
    feed.opens(1..2).up_to(ENTRIES, |random| amount(random, 1))
}

/// A book that was refused takes no entry of any kind.
fn no_book() -> Alike {
    let entry = |random: &mut Random| match random.below(6) {
        0 => Entry::open(random.between(1, 20) as u32),
        _ => naming(random, 1),
    };
    Alike::new("refused with 4", N + 1, N_REFUSED).up_to(ENTRIES, entry)
}

fn not_above() -> Alike {
    let feed = Alike::new("refused with 6", N, NOT_ABOVE_HIGHEST).opens(1..7);
    feed.up_to(ENTRIES, |random| Entry::open(random.below(7) as u32))
}

fn full() -> Alike {
    let last = MOST_PERIODS as u32;
    let feed = Alike::new("refused with 7", N, PERIODS_AT_LIMIT).opens(1..last + 1);
    feed.up_to(ENTRIES, |random| Entry::open(last + 1 + random.below(1_000) as u32))
}

/// Periods with odd numbers, where the book has one of an even number, and later eleven of them.
fn not_in_book() -> Alike {
    let odd = |random: &mut Random| {
        let period = 2 * random.below(16) as u32 + 1;
        naming(random, period)
    };
    let even = |place: u64| 2 * place as u32;
    let feed = Alike::new("refused with 8", N, PERIOD_NOT_IN_BOOK).opens((1..2).map(even));
    let nearly_full = feed.up_to(ENTRIES / 2, odd).opens((2..MOST_PERIODS).map(even));
    nearly_full.up_to(ENTRIES, odd)
}

/// What makes the feed of each refusal.
pub const REFUSED: [fn() -> Alike; 4] = [no_book, not_above, full, not_in_book];
