//! A feed of a million entries: ten years, each of twelve periods that are open at once.
//!
//! In a year each entry names the next of the twelve periods, from their opening to the last late
//! receipt. Nine in ten entries are energy or amounts, and accepted.

use comparison::generate::random::Random;
use reckoning::rules::book::Book;
use reckoning::rules::codec::{Entry, AMOUNT, ENERGY, MOST_CENTS};

const ENTRIES: usize = 1_000_000;
const YEARS: usize = 10;
const PERIODS: usize = 12;
pub const N: u8 = 64;

/// Of each period: entries that add to its sides, and entries of it that are refused.
const ADDED: usize = 7_500;
const REFUSED: usize = 40;
/// Receipts after settlement, which pay the arrears of one payer.
const LATE: usize = 25;
/// Receipts before settlement: the rest of a period's entries, but for opening, notice and settling.
const RECEIPTS: usize = (ENTRIES / YEARS) / PERIODS - ADDED - REFUSED - LATE - 3;

/// Participants below this mostly buy; the others mostly sell.
const BUYERS: u64 = 40;

pub struct Feed {
    pub entries: Vec<Entry>,
    random: Random,
    book: Book,
}

impl Feed {
    /// The entries, each of them taken by the book.
    pub fn make() -> Feed {
        let mut feed =
            Feed { entries: vec![], random: Random::new(1), book: Book::alone(N.into()) };
        for _ in 0..YEARS {
            feed.year();
        }
        while feed.entries.len() < ENTRIES {
            // What is left over of the division by twelve.
            feed.take(Entry::open(feed.book.highest), false);
        }
        feed
    }

    fn take(&mut self, entry: Entry, accepted: bool) {
        let answer = self.book.apply(&entry, &mut [0; N as usize]).number;
        assert_eq!(answer == 0, accepted, "{entry:?} was answered {answer}");
        self.entries.push(entry);
    }

    fn year(&mut self) {
        let first = self.book.highest + 1;
        let periods: Vec<u32> = (first..first + PERIODS as u32).collect();
        periods.iter().for_each(|&period| self.take(Entry::open(period), true));
        self.sides(&periods);
        periods.iter().for_each(|&period| self.take(Entry::notice(period), true));
        let defaulters = self.receipts(&periods);
        periods.iter().for_each(|&period| self.take(Entry::settle(period), true));
        self.late(&periods, &defaulters);
        assert!(self.book.periods.is_empty());
    }

    /// What makes the sides of all periods, refused entries among it; the last entry of each
    /// makes its sides equal.
    fn sides(&mut self, periods: &[u32]) {
        let every = ADDED / REFUSED;
        for turn in 1..ADDED {
            periods.iter().for_each(|&period| self.added(period));
            if turn % every == 0 && turn / every <= REFUSED {
                periods.iter().for_each(|&period| self.refused(period, turn / every));
            }
        }
        periods.iter().for_each(|&period| self.balance(period));
    }

    /// A buyer or a seller; one in five is on the other side.
    fn participant(&mut self, side: u8) -> u8 {
        let buys = (side == 0) != self.random.chance(1, 5);
        let number = match buys {
            true => self.random.below(BUYERS),
            false => self.random.between(BUYERS, u64::from(N) - 1),
        };
        number as u8
    }

    /// Energy, or an amount in one of four cases.
    fn added(&mut self, period: u32) {
        let side = self.random.below(2) as u8;
        let participant = self.participant(side);
        let entry = if self.random.chance(1, 4) {
            let tier = if side == 0 { 0 } else { self.random.between(1, 5) as u8 };
            Entry::amount(period, participant, side, tier, self.random.between(1, 10_000_000))
        } else {
            let (quantity, price) = (self.random.below(1_000_000), self.random.below(30_000));
            Entry::energy(period, participant, side, quantity as u32, price as u32)
        };
        self.take(entry, true);
    }

    fn refused(&mut self, period: u32, turn: usize) {
        let entry = match turn % 5 {
            0 => Entry::open(period),
            1 => Entry::receipt(period, 0, 1),
            2 => Entry::settle(period),
            3 => Entry::amount(period, 0, 0, 0, MOST_CENTS),
            _ => Entry::amount(period, N - 1, 1, 5, MOST_CENTS),
        };
        self.take(entry, false);
    }

    fn balance(&mut self, period: u32) {
        let sums = &self.book.periods[&period].sums;
        let (by, to) = (sums.total(0), sums.total(1));
        let cents = by.abs_diff(to) as u64;
        let participant = self.random.below(N.into()) as u8;
        let entry = match (cents, by > to) {
            (0, _) => Entry::energy(period, participant, 0, 0, 0),
            (_, true) => Entry::amount(period, participant, 1, 5, cents),
            (_, false) => Entry::amount(period, participant, 0, 0, cents),
        };
        self.take(entry, true);
    }

    /// What each payer of a period can pay now.
    fn payable(&self, period: u32) -> Vec<(u8, u64)> {
        let noticed = &self.book.periods[&period];
        let one = |i: u8| (i, noticed.most_receipt(i.into()) as u64);
        (0..N).map(one).filter(|&(_, cents)| cents > 0).collect()
    }

    /// Receipts of all payers of each period but one, who pays nothing yet; these are answered.
    /// The payer is another one in each period, since arrears bar the payer's other receipts.
    fn receipts(&mut self, periods: &[u32]) -> Vec<u8> {
        let mut defaulters: Vec<u8> = Vec::new();
        let mut lists: Vec<Vec<Entry>> = Vec::new();
        for &period in periods {
            let mut payers = self.payable(period);
            payers.sort_unstable_by_key(|&(_, cents)| std::cmp::Reverse(cents));
            let late = payers.iter().position(|(payer, _)| !defaulters.contains(payer));
            defaulters.push(payers.remove(late.expect("a payer")).0);
            lists.push(in_slices(period, &payers, RECEIPTS));
        }
        for turn in 0..RECEIPTS {
            lists.iter().for_each(|list| self.take(list[turn], true));
        }
        defaulters
    }

    /// The arrears of each period, in slices.
    fn late(&mut self, periods: &[u32], defaulters: &[u8]) {
        let slices = |(&period, &payer): (&u32, &u8)| {
            let arrears = self.book.periods[&period].arrears_of(payer.into()) as u64;
            in_slices(period, &[(payer, arrears)], LATE)
        };
        let lists: Vec<Vec<Entry>> = periods.iter().zip(defaulters).map(slices).collect();
        for turn in 0..LATE {
            lists.iter().for_each(|list| self.take(list[turn], true));
        }
    }
}

/// So many receipts, which pay what these payers can pay: first all but the first payer's by
/// equal numbers of slices, and the first payer's by as many as are left.
fn in_slices(period: u32, payers: &[(u8, u64)], receipts: usize) -> Vec<Entry> {
    let each = (receipts / payers.len()) as u64;
    let mut list = Vec::new();
    for &(payer, cents) in payers.iter().skip(1) {
        slice(&mut list, period, payer, cents, each.min(cents));
    }
    let (payer, cents) = payers[0];
    let left = (receipts - list.len()) as u64;
    slice(&mut list, period, payer, cents, left);
    list
}

fn slice(list: &mut Vec<Entry>, period: u32, payer: u8, cents: u64, slices: u64) {
    let part = cents / slices;
    assert!(part > 0, "payer {payer} of period {period} pays {cents} in {slices} slices");
    let last = cents - part * (slices - 1);
    list.extend((1..slices).map(|_| Entry::receipt(period, payer, part)));
    list.push(Entry::receipt(period, payer, last));
}

/// How many entries of a feed add to a side and are accepted.
pub fn added(entries: &[Entry]) -> usize {
    let mut book = Book::alone(N.into());
    let adds = |entry: &&Entry| {
        let accepted = book.apply(entry, &mut [0; N as usize]).number == 0;
        accepted && matches!(entry.kind, ENERGY | AMOUNT)
    };
    entries.iter().filter(adds).count()
}

/// A feed's bytes: n, then the entries.
pub fn bytes(n: u8, entries: &[Entry]) -> Vec<u8> {
    let mut bytes = vec![n];
    entries.iter().for_each(|entry| bytes.extend(entry.bytes()));
    bytes
}
