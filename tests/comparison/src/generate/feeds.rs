//! Feeds from fixed seeds, of several kinds.

use crate::generate::aim::{Aim, Manner, Scale, ALIKE};
use crate::generate::random::Random;
use crate::generate::rounds;
use reckoning::rules::book::{Book, Make};
use reckoning::rules::codec::{Entry, LAST_KIND, MOST_CENTS};
use reckoning::rules::limits::{Limits, MARKET};
use reckoning::rules::making::Making;
use reckoning::rules::month_a;
use std::iter;

/// A kind of feed: its name, how many a comparison takes, and how many entries each has.
pub struct Kind {
    pub name: &'static str,
    pub feeds: u64,
    pub entries: u64,
}

const fn kind(name: &'static str, feeds: u64, entries: u64) -> Kind {
    Kind { name, feeds, entries }
}

/// Numbers of participants and periods are those of a market book; in a book of other limits they stand
/// as near to these.
pub const KINDS: [Kind; 17] = [
    // n of 1 to 6 and few cents.
    kind("few", 150, 600),
    // n of 2 to 6 and hundreds of cents.
    kind("hundreds", 80, 600),
    // n of 1 to 6 and millions.
    kind("millions", 60, 600),
    // Amounts about the bound of a side's total.
    kind("bound", 80, 500),
    // n of 63 and 64: one below the participant limit, and at it.
    kind("wide", 40, 3_000),
    // n of 7 to 62.
    kind("middle", 30, 1_500),
    // Twelve periods at once, which is the period limit, and openings of one more.
    kind("full", 50, 1_200),
    // Months whose settlement runs many rounds; so many months, not entries.
    kind("rounds", 40, 8),
    // Half of the entries are meant to be refused.
    kind("wrong", 60, 500),
    // Period numbers up to 2^32 − 1.
    kind("highest", 20, 200),
    // Ends within an entry, or in bytes that cannot be read.
    kind("cut", 120, 60),
    // Random bytes.
    kind("noise", 60, 40),
    // n of 0 and above the participant limit.
    kind("refused-n", 30, 40),
    // 100,000 entries.
    kind("long", 5, 100_000),
    // n of 2 to 6 and much money for purses.
    kind("purses", 120, 600),
    // n of 2 to 6 and many washups.
    kind("washups", 120, 600),
    // n of 2 to 8, and many equal amounts owing to participants.
    kind("leftovers", 120, 600),
];

fn manner(name: &str, limits: Limits, random: &mut Random, n: u64) -> Manner {
    let scale = match name {
        "few" | "highest" => Scale::Few,
        "hundreds" => Scale::Hundreds,
        "millions" => Scale::Millions,
        "bound" => Scale::Bound,
        "washups" => random.pick(&[Scale::Few, Scale::Hundreds, Scale::Bound, Scale::Bound]),
        "leftovers" => random.pick(&[Scale::Few, Scale::Few, Scale::Hundreds, Scale::Bound]),
        _ => random.pick(&[Scale::Few, Scale::Few, Scale::Hundreds, Scale::Millions, Scale::Bound]),
    };
    let periods = match name {
        "full" => limits.periods,
        "purses" => random.pick(&[2, 3, 4, limits.periods]),
        _ => random.pick(&[1, 2, 3, 4, 7]),
    };
    let wrong = match name {
        "wrong" => 50,
        "wide" | "long" => 3,
        "washups" => random.pick(&[5, 15]),
        _ => random.pick(&[0, 5, 15]),
    };
    let step = match name {
        "highest" => 1 << 29,
        "washups" => random.pick(&[1, 1, 1, 4, 100, 1 << 29]),
        _ => random.pick(&[1, 1, 4, 100]),
    };
    let purses = match name {
        "purses" => random.pick(&[10, 25]),
        "long" => 3,
        _ => random.pick(&[0, 0, 2, 8]),
    };
    let washups = match name {
        "washups" => random.pick(&[25, 50]),
        "long" | "highest" => 10,
        _ => random.pick(&[0, 0, 5, 15]),
    };
    let alike = if name == "leftovers" { ALIKE } else { 0 };
    Manner { scale, wrong, periods, amounts: n + 3, step, purses, washups, alike }
}

/// n, for a book of some limits.
fn participants(name: &str, limits: Limits, seed: u64, random: &mut Random) -> u64 {
    let most = limits.participants;
    match name {
        "few" | "bound" => 1 + seed % 6,
        "wide" => most - 1 + seed % 2,
        "middle" => random.between(7.min(most - 2), most - 2),
        "rounds" => random.between(4, most),
        "long" => [3, most, 2, 5, 6][(seed % 5) as usize],
        "refused-n" => [0, most + 1, 255, random.between(most + 2, 254)][(seed % 4) as usize],
        "full" | "purses" | "washups" => random.between(2, 6),
        "leftovers" => random.between(2, most.min(8)),
        "cut" | "wrong" => random.pick(&[1, 2, 3, 4, 5, 6, most - 1, most]),
        _ => random.between(1, 6),
    }
}

/// The feed of a kind for a seed; nothing for a kind that does not exist.
pub fn feed(seed: u64, name: &str) -> Option<Vec<u8>> {
    feed_within(MARKET, seed, name)
}

/// The same for a book of some limits.
pub fn feed_within(limits: Limits, seed: u64, name: &str) -> Option<Vec<u8>> {
    feed_by((limits, Book::make), seed, name)
}

/// The same, aimed by a book that is made so.
pub fn feed_by((limits, make): (Limits, Make), seed: u64, name: &str) -> Option<Vec<u8>> {
    let place = KINDS.iter().position(|kind| kind.name == name)?;
    let mut random = Random::of(seed, place as u64);
    if name == "noise" {
        return Some(noise(&mut random));
    }
    let n = participants(name, limits, seed, &mut random);
    let making = Making::within(limits, n);
    if name == "rounds" {
        return Some(months_of_rounds(&mut random, &making, KINDS[place].entries));
    }
    let manner = manner(name, limits, &mut random, n);
    let mut aim = Aim::new(random, &making, manner);
    aim.book = make(&making).0;
    let mut bytes = vec![n as u8];
    for _ in 0..KINDS[place].entries {
        let entry = aim.propose();
        aim.book.apply(&entry, &mut [0; 64]);
        bytes.extend(entry.bytes());
    }
    if name == "cut" {
        end_badly(&mut bytes, &mut aim.random);
    }
    Some(bytes)
}

fn months_of_rounds(random: &mut Random, making: &Making, months: u64) -> Vec<u8> {
    let mut book = Book::make(making).0;
    let mut bytes = vec![making.n as u8];
    for _ in 0..months {
        bytes.extend(rounds::month(random, &mut book).iter().flat_map(Entry::bytes));
    }
    bytes
}

/// Random bytes, half of them with kinds that exist more often than not.
fn noise(random: &mut Random) -> Vec<u8> {
    let count = random.below(400) as usize;
    let mut bytes = random.bytes(count);
    if random.chance(1, 2) {
        for byte in &mut bytes {
            *byte %= LAST_KIND + 1;
        }
    }
    bytes
}

/// Ends a feed within an entry, with an unknown kind, a bad field or random bytes.
fn end_badly(bytes: &mut Vec<u8>, random: &mut Random) {
    match random.below(4) {
        0 => {
            let keep = random.below(bytes.len() as u64 + 1);
            bytes.truncate(keep as usize);
        }
        1 => bytes.push(random.pick(&[0, LAST_KIND + 1, LAST_KIND + 2, 127, 255])),
        2 => bytes.extend(bad_field(random).bytes()),
        _ => {
            let count = random.between(1, 40) as usize;
            bytes.extend(random.bytes(count));
        }
    }
    if random.chance(1, 3) {
        bytes.extend(Entry::open(u32::MAX).bytes());
    }
}

/// An entry with one field just outside its values.
fn bad_field(random: &mut Random) -> Entry {
    random.pick(&[
        Entry::energy(1, 64, 0, 1, 1),
        Entry::energy(1, 0, 2, 1, 1),
        Entry::energy(1, 0, 0, 100_000_001, 1),
        Entry::energy(1, 0, 0, 1, 10_000_001),
        Entry::amount(1, 64, 0, 0, 1),
        Entry::amount(1, 0, 2, 0, 1),
        Entry::amount(1, 0, 0, 1, 1),
        Entry::amount(1, 0, 1, 0, 1),
        Entry::amount(1, 0, 1, 6, 1),
        Entry::amount(1, 0, 0, 0, 0),
        Entry::amount(1, 0, 0, 0, MOST_CENTS + 1),
        Entry::receipt(1, 64, 1),
        Entry::receipt(1, 0, 0),
        Entry::receipt(1, 0, MOST_CENTS + 1),
        Entry::purse(64, 1),
        Entry::purse(0, 0),
        Entry::purse(0, MOST_CENTS + 1),
        Entry::washup(2, 1, 64, 0, 1, 1, 1),
        Entry::washup(2, 1, 0, 2, 1, 1, 1),
        Entry::washup(2, 1, 0, 0, 100_000_001, 1, 1),
        Entry::washup(2, 1, 0, 0, 1, 100_000_001, 1),
        Entry::washup(2, 1, 0, 0, 1, 1, 10_000_001),
    ])
}

/// A feed of short entries with long lines, of which a block gives more output than the listing lets
/// wait: each opening is refused, while a purse at its bound is held.
pub fn waiting_output() -> Vec<u8> {
    let openings = iter::repeat_n(Entry::open(0), 30_000);
    let entries = iter::once(Entry::purse(0, MOST_CENTS)).chain(openings);
    iter::once(3).chain(entries.flat_map(|entry| entry.bytes())).collect()
}

/// Month A's feed cut after each of its bytes, from empty to whole.
pub fn month_a_cut() -> Vec<Vec<u8>> {
    let whole = month_a::feed();
    (0..=whole.len()).map(|count| whole[..count].to_vec()).collect()
}
