//! Trials of washups (02, e): months with washups about the bounds of both sides, of small period
//! numbers and of the last ones.

use crate::generate::call_maker::Maker;
use reckoning::rules::codec::Entry;

/// How many books a trial makes, and how many months each has at most.
const BOOKS: u64 = 2;
const MONTHS: u64 = 5;
/// How many washups come one after the other.
const WASHUPS: usize = 8;

const EVERY_N: [u64; 9] = [1, 2, 3, 3, 4, 5, 6, 12, 64];

impl Maker {
    /// Opens a first period, of a small number, of any, or of one of the last.
    fn open_first(&mut self) {
        let random = &mut self.aim.random;
        let (small, any) = (random.between(1, 40), random.between(1, u32::MAX.into()));
        let last = u64::from(u32::MAX) - random.between(0, 30);
        let first = random.pick(&[1, small, small, any, last]) as u32;
        self.apply(Entry::open(first));
    }

    /// Washups for a period before its notice; a quarter of them is meant to be refused.
    fn washups(&mut self, number: u32) {
        for _ in 0..WASHUPS {
            let entry = match self.aim.random.chance(1, 4) {
                true => self.aim.wrong_washup(),
                false => self.aim.washup(number),
            };
            self.apply(entry);
        }
    }

    /// A month of an opened period, in half of which the sides are filled.
    fn month_of_washups(&mut self, number: u32) {
        self.washups(number);
        if self.aim.random.chance(1, 2) {
            let first = self.aim.random.below(2) as u8;
            for side in [first, 1 - first] {
                let filling = self.aim.filling(number, side);
                filling.into_iter().for_each(|entry| self.apply(entry));
                self.washups(number);
            }
        }
        self.rest_of_month(number);
    }
}

/// The trial for a seed, in books of groups of one and in groups.
pub fn trial_of_washups(seed: u64) -> Vec<u8> {
    let mut maker = Maker::new(seed, 55);
    for _ in 0..BOOKS {
        maker.market_book(&EVERY_N, (1, 2));
        maker.aim.manner.washups = 30;
        maker.open_first();
        for _ in 0..MONTHS {
            maker.opened();
            if let Some(number) = maker.aim.any_before_notice() {
                maker.month_of_washups(number);
            }
        }
        maker.any_entries(0, 20);
    }
    maker.ended()
}
