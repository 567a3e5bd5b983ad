//! Trials of books that are made with groups and reserves (02, a): whole months in groups of
//! every shape, and makings that are refused between them.

use crate::coverage::group_kinds::{Reserves, Shape};
use crate::generate::call_maker::Maker;
use crate::generate::groupings;
use crate::generate::makings::spoilt;
use crate::generate::random::Random;
use crate::trials::months_of_rounds;
use reckoning::programs::calls;
use reckoning::rules::making::Making;

/// How many books a trial makes and is meant to use, and how many months a trial of rounds has.
const BOOKS: u64 = 3;
const MONTHS_OF_ROUNDS: u64 = 2;

const EVERY_N: [u64; 12] = [1, 2, 3, 4, 5, 6, 6, 8, 12, 17, 63, 64];

/// The trial for a seed: books of one shape and one kind of reserves, with months in them.
pub fn trial_of_groups(seed: u64) -> Vec<u8> {
    let shape = Shape::ALL[seed as usize % Shape::ALL.len()];
    let reserves = Reserves::ALL[seed as usize / Shape::ALL.len() % Reserves::ALL.len()];
    let mut maker = Maker::new(seed, 59);
    for _ in 0..BOOKS {
        let n = maker.aim.random.pick(&EVERY_N);
        let making = groupings::making(&mut maker.aim.random, n, shape, reserves);
        maker.make(&making);
        maker.month();
        maker.month();
        maker.any_entries(0, 60);
        let refused = spoilt::any_refused(&mut maker.aim.random, &making);
        maker.make(&refused);
        maker.any_entries(1, 8);
    }
    maker.ended_within(&calls::book_in_groups(&Making::alone(3)))
}

/// A making in which participants 0 and 1, who fail together, are in two groups.
fn making_for_rounds(random: &mut Random, n: u64) -> Making {
    let shapes = [Shape::Pairs, Shape::Triples, Shape::Sizes, Shape::Numbers, Shape::Shuffled];
    let (shape, reserves) = (random.pick(&shapes), random.pick(&[Reserves::None, Reserves::Small]));
    loop {
        let making = groupings::making(random, n, shape, reserves);
        if making.groups[0] != making.groups[1] {
            return making;
        }
    }
}

/// A trial of months in groups whose settlement runs many rounds.
pub fn trial_of_rounds_in_groups(seed: u64) -> Vec<u8> {
    let mut random = Random::of(seed, 57);
    let n = random.pick(&[6, 8, 12, 16, 24, 63, 64]);
    let making = making_for_rounds(&mut random, n);
    months_of_rounds(random, calls::book_in_groups(&making), &making, MONTHS_OF_ROUNDS)
}
