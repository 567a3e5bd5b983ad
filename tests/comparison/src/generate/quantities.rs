//! Old and new quantities of washups (02, e) and their price: of a scale, and such that the amount
//! is just so many cents.

use crate::generate::aim::Scale;
use crate::generate::energies;
use crate::generate::random::Random;
use reckoning::rules::codec::{MOST_PRICE, MOST_QUANTITY};
use reckoning::rules::month::energy_cents;

/// At most so many cents are aimed at; a kWh at the highest price is 11,500.
const MOST_AIMED: u64 = 9_200_000;
const CENTS_OF_A_KWH: u64 = 11_500;
/// So many kWh at a price and at the next one are less than a cent apart.
const MOST_STEP: u64 = 800;
/// kWh × price up to this is less than half a cent; 434.8 would be one.
const MOST_OF_NO_CENTS: u64 = 434;
/// How often quantities are drawn anew when their cents are others.
const TRIES: usize = 20;

#[derive(Clone, Copy, Debug, PartialEq, Eq)]
pub struct Revision {
    pub old: u32,
    pub new: u32,
    pub price: u32,
}

impl Revision {
    /// From the new quantity to the old one.
    pub fn turned(self) -> Revision {
        Revision { old: self.new, new: self.old, ..self }
    }

    /// The amount of the new quantity less that of the old one.
    pub fn cents(&self) -> i128 {
        let of = |quantity| energy_cents(quantity, self.price) as i128;
        of(self.new) - of(self.old)
    }

    /// This one or the turned one.
    pub fn either_way(self, random: &mut Random) -> Revision {
        if random.chance(1, 2) {
            self
        } else {
            self.turned()
        }
    }
}

/// A quantity beside another: the same, some kWh more, none, some up to twice as many, or an odd
/// multiple, which is a half where the other is one.
fn beside(random: &mut Random, old: u32) -> u32 {
    let twice = random.between(0, 2 * u64::from(old) + 3) as u32;
    let more = old + random.between(1, 3) as u32;
    let new = match random.below(8) {
        0 => old,
        1 => more,
        2 => 0,
        3 | 4 => 3 * u64::from(old).min(u64::from(MOST_QUANTITY) / 3) as u32,
        _ => twice,
    };
    new.min(MOST_QUANTITY)
}

/// Both quantities so near, or the price so low, that the cents are likely the same.
fn of_likely_the_same_cents(random: &mut Random) -> Revision {
    let old = random.below(10_000) as u32;
    let (new, price) = (old + random.between(1, 3) as u32, random.below(120) as u32);
    Revision { old, new, price }
}

/// A revision of a scale, up or down.
pub fn any(random: &mut Random, scale: Scale) -> Revision {
    if random.chance(1, 12) {
        return of_likely_the_same_cents(random).either_way(random);
    }
    let (old, price) = energies::any(random, scale);
    let new = beside(random, old);
    Revision { old, new, price }.either_way(random)
}

/// A revision up by just so many cents; nothing where none was found.
pub fn up_by(random: &mut Random, cents: u64) -> Option<Revision> {
    let mut found = (0..TRIES).map(|_| drawn_for(random, cents));
    found.find(|found| found.cents() == i128::from(cents))
}

/// Whether revisions by so many cents are found.
pub fn in_reach(cents: u64) -> bool {
    cents <= MOST_AIMED
}

/// A revision up by about so many cents; the old quantity is none, small or large.
fn drawn_for(random: &mut Random, cents: u64) -> Revision {
    let least = cents.min(MOST_AIMED).div_ceil(CENTS_OF_A_KWH).max(1);
    let step = random.between(least, MOST_STEP);
    let step = random.pick(&[least, step, step]);
    // step × price × 23 / 20,000 is about the cents.
    let price = match cents {
        0 => random.between(0, MOST_OF_NO_CENTS / step),
        _ => random.near((cents * 20_000 / 23 + step / 2) / step),
    };
    let room = u64::from(MOST_QUANTITY) - step;
    let (small, large) = (random.below(1_000), random.between(0, room));
    let old = random.pick(&[0, small, small, large]) as u32;
    let price = price.min(MOST_PRICE.into()) as u32;
    Revision { old, new: old + step as u32, price }
}
