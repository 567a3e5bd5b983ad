//! Calls of every sort, and how a trial ends.

use crate::generate::call_maker::Maker;
use crate::generate::groupings;
use crate::generate::random::Random;
use reckoning::programs::calls;
use reckoning::programs::trial::CALL_FIELDS;
use reckoning::rules::codec::{
    self, Entry, Field, LAST_KIND, MOST_CENTS, MOST_PRICE, MOST_QUANTITY,
};
use reckoning::rules::limits::MARKET;
use reckoning::rules::making::Making;

/// How many calls a trial has at most.
const MOST_CALLS: u64 = 500;
/// Every n that trials are made with; 0, 65 and 255 are refused, and larger ones too.
const EVERY_N: [u64; 16] = [1, 2, 3, 3, 4, 5, 6, 6, 63, 64, 64, 0, 65, 255, 1 << 32, u64::MAX];
const STANDING_N: [u64; 8] = [1, 2, 3, 4, 5, 6, 63, 64];

/// The calls of the trial for a seed.
pub fn trial(seed: u64) -> Vec<u8> {
    let mut random = Random::of(seed, 63);
    let n = random.pick(&STANDING_N);
    let mut maker = Maker::with_book(random, n);
    // One trial in eight begins before the first book is made.
    match maker.aim.random.chance(1, 8) {
        true => maker = Maker::with_book(maker.aim.random, 0),
        false => maker.bytes.extend(calls::book(n)),
    }
    for _ in 0..maker.aim.random.between(40, MOST_CALLS) {
        let refused_n = maker.aim.book.n == 0 && maker.aim.random.chance(1, 8);
        match maker.aim.random.below(200) {
            _ if refused_n => maker.book_of_any(&STANDING_N),
            0 => maker.book_of_any(&EVERY_N),
            1..=12 => maker.any_read(),
            13..=24 => maker.any_write(),
            _ => maker.any_apply(),
        }
    }
    maker.ended()
}

impl Maker {
    /// Makes a book of any of some n.
    fn book_of_any(&mut self, every_n: &[u64]) {
        let n = self.aim.random.pick(every_n);
        self.make_by(calls::book(n), &Making::alone(n));
    }

    /// Makes a market book of any of some n; so many of so many are in groups.
    pub(super) fn market_book(&mut self, every_n: &[u64], in_groups: (u64, u64)) {
        let random = &mut self.aim.random;
        let n = random.pick(every_n);
        let making = groupings::in_groups_or_alone(random, in_groups, MARKET, n);
        self.make(&making);
    }

    /// Ends a trial after a whole call, within a call, at a byte that is no call,
    /// or at a kind that does not exist.
    pub(super) fn ended(mut self) -> Vec<u8> {
        let (bytes, random) = (&mut self.bytes, &mut self.aim.random);
        match random.below(6) {
            0 => {
                let lost = random.between(1, 32) as usize;
                bytes.truncate(bytes.len() - lost);
            }
            1 => bytes.push(random.pick(b"\0\nCXabrw\xff")),
            2 => {
                let mut entry = Entry::open(1);
                entry.kind = random.pick(&[0, LAST_KIND + 1, 255]);
                let with_kind: fn(&Entry, u8) -> Vec<u8> =
                    random.pick(&[calls::apply as _, calls::write as _]);
                bytes.extend(with_kind(&entry, 3));
            }
            _ => return self.bytes,
        }
        bytes.extend(calls::book(3));
        self.bytes
    }

    /// Ends a trial as others end, or within a call that makes a book.
    pub(super) fn ended_within(mut self, call: &[u8]) -> Vec<u8> {
        if self.aim.random.chance(1, 2) {
            return self.ended();
        }
        let length = self.aim.random.between(1, call.len() as u64 - 1) as usize;
        self.bytes.extend(&call[..length]);
        self.bytes
    }

    /// A value about a bound of a field, or any that its width can carry.
    fn edge(&mut self, field: Field) -> u64 {
        let (n, highest) = (self.aim.book.n as u64, u64::from(self.aim.book.highest));
        let random = &mut self.aim.random;
        let any = random.any() >> (64 - 8 * codec::width(field) as u32);
        let bound = match field {
            Field::Period => random.pick(&[0, highest, u64::from(u32::MAX)]),
            Field::Participant => random.pick(&[63, 64, n]),
            Field::Side => 1,
            Field::Tier => random.pick(&[0, 1, 5]),
            Field::Quantity | Field::OldQuantity => random.pick(&[0, u64::from(MOST_QUANTITY)]),
            Field::Price => random.pick(&[0, u64::from(MOST_PRICE)]),
            Field::Cents => random.pick(&[0, 1, MOST_CENTS]),
            Field::EarlierPeriod => {
                random.pick(&[0, highest, highest.saturating_sub(24), u64::from(u32::MAX)])
            }
        };
        let near = random.near(bound);
        random.pick(&[near, near, near, any])
    }

    /// The entry that the aim proposes, in so many of a hundred cases with a field about its bounds.
    fn any_entry(&mut self, edges: u64) -> Entry {
        let mut entry = self.aim.propose();
        while self.aim.random.chance(edges, 100) {
            let field = self.aim.random.pick(codec::layout(entry.kind));
            entry.set(field, self.edge(field));
        }
        // The fields that the kind lacks are passed over, whatever their values.
        for field in CALL_FIELDS {
            if !entry.has(field) {
                entry.set(field, self.aim.random.any());
            }
        }
        entry
    }

    fn any_apply(&mut self) {
        let entry = self.any_entry(6);
        let (n, random) = (self.aim.book.n as u64, &mut self.aim.random);
        let words = match random.below(10) {
            0 => random.between(0, n + 2),
            1 => random.near(n),
            _ => n,
        };
        self.aim.book.apply(&entry, &mut vec![0; words as usize]);
        self.bytes.extend(calls::apply(&entry, words as u8));
    }

    /// Any entries, as many as is drawn between two bounds.
    pub(super) fn any_entries(&mut self, least: u64, most: u64) {
        (0..self.aim.random.between(least, most)).for_each(|_| self.any_apply());
    }

    fn any_write(&mut self) {
        let entry = self.any_entry(25);
        let (needed, random) = (entry.bytes().len() as u64, &mut self.aim.random);
        let room = match random.below(3) {
            0 => random.below(28),
            1 => random.near(needed),
            _ => needed,
        };
        self.bytes.extend(calls::write(&entry, room as u8));
    }

    fn any_read(&mut self) {
        let before = self.aim.random.below(6) as usize;
        let after = self.aim.random.below(6) as usize;
        let mut bytes = self.aim.random.bytes(before);
        bytes.extend(self.any_entry(25).bytes());
        let random = &mut self.aim.random;
        bytes.extend(random.bytes(after));
        if random.chance(1, 5) {
            bytes.truncate(random.below(bytes.len() as u64 + 1) as usize);
        }
        let length = bytes.len() as u64;
        let place = match random.below(8) {
            0 => random.below(length + 3),
            1 => random.pick(&[length, u64::MAX, 1 << 63, 1 << 32]),
            _ => before as u64,
        };
        self.bytes.extend(calls::read(place, &bytes));
    }
}
