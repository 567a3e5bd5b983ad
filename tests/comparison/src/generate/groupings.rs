//! Groups of every shape and reserves of every kind.

use crate::coverage::group_kinds::{Reserves, Shape, SMALL};
use crate::generate::random::Random;
use reckoning::rules::limits::{Limits, MARKET};
use reckoning::rules::making::{Making, GROUPS, MOST_RESERVE};
use std::array;

/// The numbers from 0 to count − 1, in any order.
fn in_any_order(random: &mut Random, count: usize) -> Vec<usize> {
    let mut numbers: Vec<usize> = (0..count).collect();
    for last in (1..count).rev() {
        numbers.swap(last, random.below(last as u64 + 1) as usize);
    }
    numbers
}

impl Shape {
    /// Group numbers of this shape for n participants, if n is not too small for it.
    fn draw(self, random: &mut Random, n: usize) -> Vec<u8> {
        let participants = in_any_order(random, n);
        let groups = in_any_order(random, GROUPS);
        let one = random.pick(&[0, groups[0], GROUPS - 1]);
        let count = random.between(2, (n as u64 / 2).max(2)) as usize;
        // The group of the participant that comes at a place.
        let mut group = |place: usize| match self {
            Shape::OneGroup => one,
            Shape::ZeroAnd63 if place < 2 => place * (GROUPS - 1),
            Shape::ZeroAnd63 => random.pick(&[0, GROUPS - 1]),
            Shape::InOrder => participants[place],
            Shape::Shuffled => groups[place],
            Shape::Pairs => groups[place / 2],
            Shape::Triples => groups[place / 3],
            Shape::Sizes if place < count => place,
            Shape::Sizes => random.below(count as u64) as usize,
            Shape::Numbers => random.below(GROUPS as u64) as usize,
        };
        let mut numbers = vec![0; n];
        for (place, &participant) in participants.iter().enumerate() {
            numbers[participant] = group(place) as u8;
        }
        numbers
    }
}

impl Reserves {
    /// Reserves of this kind, for groups of which some have members.
    fn draw(self, random: &mut Random, numbers: &[u8]) -> [u64; GROUPS] {
        array::from_fn(|group| {
            let small = random.between(0, SMALL);
            let bits = random.between(1, 43);
            let any = random.between(0, (1 << bits).min(MOST_RESERVE));
            let mixed = random.pick(&[0, small, any, any, any, MOST_RESERVE - 1, MOST_RESERVE]);
            match self {
                Reserves::None => 0,
                Reserves::Memberless if numbers.contains(&(group as u8)) => 0,
                Reserves::Small => small,
                Reserves::Bound => MOST_RESERVE,
                Reserves::Memberless | Reserves::Mixed => mixed,
            }
        })
    }
}

/// An accepted making of n participants. Their group numbers are followed by any others.
pub fn making(random: &mut Random, n: u64, shape: Shape, reserves: Reserves) -> Making {
    let numbers = shape.draw(random, n as usize);
    let reserves = reserves.draw(random, &numbers);
    let groups = array::from_fn(|i| {
        let any = random.any() as u8;
        let past = random.pick(&[any, any, i as u8, 0, 63, 64, 255]);
        numbers.get(i).copied().unwrap_or(past)
    });
    Making { n, groups, reserves, limits: MARKET }
}

/// An accepted making of n participants, of any shape and with reserves of any kind.
pub fn any_making(random: &mut Random, n: u64) -> Making {
    let (shape, reserves) = (random.pick(Shape::ALL), random.pick(Reserves::ALL));
    making(random, n, shape, reserves)
}

/// A making of some limits: so many of so many in any groups, the others in groups of one.
pub fn in_groups_or_alone(
    random: &mut Random,
    (part, whole): (u64, u64),
    limits: Limits,
    n: u64,
) -> Making {
    match random.chance(part, whole) {
        true => Making { limits, ..any_making(random, n) },
        false => Making::within(limits, n),
    }
}
