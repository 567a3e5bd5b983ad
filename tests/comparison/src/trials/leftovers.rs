//! Trials of leftover cents (02, g): months in which many amounts owing to participants are equal,
//! so that remainders are equal.

use crate::generate::aim::{Scale, ALIKE};
use crate::generate::call_maker::Maker;

/// How many books a trial makes, and how many months each has.
const BOOKS: u64 = 3;
const MONTHS: u64 = 6;
const EVERY_N: [u64; 9] = [2, 3, 3, 4, 5, 6, 8, 12, 64];
const SCALES: [Scale; 5] = [Scale::Few, Scale::Few, Scale::Few, Scale::Hundreds, Scale::Bound];

/// The trial for a seed, in books of groups of one and in groups.
pub fn trial_of_leftovers(seed: u64) -> Vec<u8> {
    let mut maker = Maker::new(seed, 50);
    for _ in 0..BOOKS {
        maker.market_book(&EVERY_N, (1, 3));
        maker.aim.manner.scale = maker.aim.random.pick(&SCALES);
        (maker.aim.manner.alike, maker.aim.manner.washups) = (ALIKE, 0);
        (0..MONTHS).for_each(|_| maker.month());
    }
    maker.ended()
}
