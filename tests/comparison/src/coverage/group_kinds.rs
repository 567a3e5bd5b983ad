//! The shapes of groups and the kinds of reserves (02, a), told apart.

use crate::coverage::sights::ALONE;
use crate::coverage::{Place, Subject};
use reckoning::rules::making::{Making, LAST_GROUP, MOST_RESERVE};
use std::collections::BTreeMap;

/// The most of a small reserve.
pub const SMALL: u64 = 300;

pub static SHAPES: Subject =
    Subject { name: "settled months by groups", rows: Shape::ROWS, columns: ALONE, needed };

pub static RESERVES: Subject =
    Subject { name: "settled months by reserves", rows: Reserves::ROWS, columns: ALONE, needed };

fn needed(place: Place, _: usize, _: usize) -> bool {
    matches!(place, Place::Trials | Place::Months)
}

sights! {
    /// How participants are grouped.
    pub enum Shape of SHAPES {
        OneGroup = "all in one",
        /// In groups 0 and 63, and in both.
        ZeroAnd63 = "0 and 63 alone",
        /// Participant i in group i.
        InOrder = "apart, participant i in group i",
        Shuffled = "apart by other numbers",
        /// In groups of two; one group may be smaller.
        Pairs = "pairs",
        /// In groups of three; one group may be smaller.
        Triples = "triples",
        /// In groups of other sizes, numbered from 0 on without a gap.
        Sizes = "random sizes",
        /// In groups of other sizes, by any numbers.
        Numbers = "random numbers",
    }
}

/// How many participants each group has, but for groups without any.
fn sizes(numbers: &[u8]) -> BTreeMap<u8, usize> {
    let mut sizes = BTreeMap::new();
    numbers.iter().for_each(|&group| *sizes.entry(group).or_default() += 1);
    sizes
}

/// Whether groups have a size, but for one that may be smaller.
fn all_of_size(sizes: &BTreeMap<u8, usize>, size: usize) -> bool {
    let others: Vec<&usize> = sizes.values().filter(|&&other| other != size).collect();
    others.len() <= 1 && others.iter().all(|&&other| other < size)
}

impl Shape {
    /// The shape of some participants' group numbers.
    pub fn of(numbers: &[u8]) -> Shape {
        let sizes = sizes(numbers);
        let used: Vec<u8> = sizes.keys().copied().collect();
        let in_order = numbers.iter().enumerate().all(|(i, &group)| i == usize::from(group));
        match used.len() {
            _ if in_order => Shape::InOrder,
            groups if groups == numbers.len() => Shape::Shuffled,
            1 => Shape::OneGroup,
            _ if used == [0, LAST_GROUP] => Shape::ZeroAnd63,
            _ if all_of_size(&sizes, 2) => Shape::Pairs,
            _ if all_of_size(&sizes, 3) => Shape::Triples,
            groups if usize::from(used[groups - 1]) == groups - 1 => Shape::Sizes,
            _ => Shape::Numbers,
        }
    }
}

sights! {
    /// What reserves groups have.
    pub enum Reserves of RESERVES {
        None = "none",
        Memberless = "of groups without members alone",
        Small = "small, at most 300 cents",
        Bound = "all at the bound",
        Mixed = "mixed",
    }
}

impl Reserves {
    /// The kind of the reserves of an accepted making.
    pub fn of(making: &Making) -> Reserves {
        let reserves = &making.reserves;
        let of_members = making.numbers().iter().map(|&group| reserves[usize::from(group)]);
        if reserves.iter().all(|&cents| cents == 0) {
            Reserves::None
        } else if of_members.max() == Some(0) {
            Reserves::Memberless
        } else if reserves.iter().all(|&cents| cents <= SMALL) {
            Reserves::Small
        } else if reserves.iter().all(|&cents| cents == MOST_RESERVE) {
            Reserves::Bound
        } else {
            Reserves::Mixed
        }
    }
}

#[cfg(test)]
mod tests {
    use super::*;

    #[test]
    fn shapes_by_their_numbers() {
        let rows: [(&[u8], Shape); 12] = [
            (&[7, 7, 7], Shape::OneGroup),
            (&[0, 63, 63, 0, 0], Shape::ZeroAnd63),
            (&[0, 1, 2], Shape::InOrder),
            (&[0], Shape::InOrder),
            (&[0, 2, 1], Shape::Shuffled),
            (&[63], Shape::Shuffled),
            (&[9, 1, 1, 9, 4], Shape::Pairs),
            (&[9, 1, 1, 9, 9, 1, 4, 4], Shape::Triples),
            (&[2, 1, 1, 0, 0, 0], Shape::Sizes),
            (&[3, 1, 1, 0, 0, 0], Shape::Numbers),
            (&[9, 1, 1, 4], Shape::Numbers),
            (&[0, 0, 0, 0, 1, 1], Shape::Sizes),
        ];
        for (numbers, shape) in rows {
            assert_eq!(Shape::of(numbers), shape, "{numbers:?}");
        }
    }
}
