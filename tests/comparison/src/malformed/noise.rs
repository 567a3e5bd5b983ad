//! Feeds of random bytes, from mere noise to right feeds with a few bytes changed.

use crate::generate::aim::{Aim, Manner, Scale};
use crate::generate::random::Random;
use reckoning::rules::codec::{
    self, Entry, Field, LAST_KIND, MOST_CENTS, MOST_PRICE, MOST_QUANTITY, OPEN,
};
use reckoning::rules::making::Making;

const FLAVOURS: u64 = 4;

/// The feed of a seed. Seeds take flavours in turn, and every value of n in turn in half of the feeds.
pub fn feed(seed: u64) -> Vec<u8> {
    let mut random = Random::new(!seed);
    let turn = (seed / FLAVOURS) as u8;
    let standing = random.between(1, 64) as u8;
    let n = random.pick(&[turn, standing]);
    let mut feed = match seed % FLAVOURS {
        0 => uniform(&mut random, n),
        1 => small(&mut random, n),
        2 => entries_about_bounds(&mut random, n),
        _ => changed(&mut random, n),
    };
    if random.chance(1, 10) {
        let length = random.below(feed.len() as u64 + 1) as usize;
        feed.truncate(length);
    }
    feed
}

fn uniform(random: &mut Random, n: u8) -> Vec<u8> {
    let count = random.below(64) as usize;
    [vec![n], random.bytes(count)].concat()
}

/// Kinds that exist, small values and the edges of a byte.
fn small(random: &mut Random, n: u8) -> Vec<u8> {
    let mut feed = vec![n];
    for _ in 0..random.below(160) {
        let kind = random.below(u64::from(LAST_KIND) + 1) as u8;
        feed.push(random.pick(&[0, 0, 0, 0, kind, kind, kind, 1, 63, 64, 255]));
    }
    feed
}

/// A value that a field may have or one about a bound of it.
fn value(random: &mut Random, field: Field) -> u64 {
    let bound = match field {
        Field::Period | Field::EarlierPeriod => random.pick(&[0, 1, 2, 3, u64::from(u32::MAX)]),
        Field::Participant => random.pick(&[0, 1, 2, 63, 64]),
        Field::Side => random.below(2),
        Field::Tier => random.pick(&[0, 0, 1, 5]),
        Field::Quantity | Field::OldQuantity => random.pick(&[0, 5_000, u64::from(MOST_QUANTITY)]),
        Field::Price => random.pick(&[0, 9_000, u64::from(MOST_PRICE)]),
        Field::Cents => random.pick(&[0, 1, 500, MOST_CENTS]),
    };
    if random.chance(1, 20) {
        random.near(bound)
    } else {
        bound
    }
}

/// Entries of any kind with fields within their values and just outside of them.
fn entries_about_bounds(random: &mut Random, n: u8) -> Vec<u8> {
    let mut feed = vec![n];
    for _ in 0..random.below(24) {
        let kind = random.between(OPEN.into(), LAST_KIND.into()) as u8;
        let mut entry = Entry { kind, ..Entry::default() };
        for &field in codec::layout(kind) {
            entry.set(field, value(random, field));
        }
        feed.extend(entry.bytes());
    }
    feed
}

/// A right feed, of which some bytes are changed, added or lost. In one of four n is any.
fn changed(random: &mut Random, n: u8) -> Vec<u8> {
    let standing = random.pick(&[1, 2, 3, 4, 5, 6, 64]);
    let scale = random.pick(&[Scale::Few, Scale::Hundreds, Scale::Millions, Scale::Bound]);
    let periods = random.pick(&[1, 2, 12]);
    let manner =
        Manner { scale, wrong: 5, periods, amounts: 4, step: 2, purses: 8, washups: 10, alike: 0 };
    let mut aim = Aim::new(random.clone(), &Making::alone(standing), manner);
    let mut feed = vec![if random.chance(1, 4) { n } else { standing as u8 }];
    for _ in 0..random.between(1, 60) {
        let entry = aim.propose();
        aim.book.apply(&entry, &mut vec![0; aim.book.n]);
        feed.extend(entry.bytes());
    }
    for _ in 0..random.between(1, 3) {
        change(random, &mut feed);
    }
    feed
}

fn change(random: &mut Random, feed: &mut Vec<u8>) {
    let place = random.between(1, feed.len() as u64) as usize;
    let any = random.any() as u8;
    let byte = random.pick(&[any, any, 0, 1, LAST_KIND, LAST_KIND + 1, 64, 255]);
    match random.below(4) {
        0 => feed.insert(place, byte),
        _ if place == feed.len() => feed.push(byte),
        1 if place > 1 => drop(feed.remove(place)),
        _ => feed[place] = byte,
    }
}
