//! Quantities and prices of energy entries, drawn by scale: any, those whose amount is an exact half
//! of a cent, and those next to one.
//!
//! product × 115 / 100,000 is product × 23 / 20,000, an exact half just where the product is an odd
//! multiple of 10,000.

use crate::generate::aim::Scale;
use crate::generate::random::Random;
use reckoning::rules::codec::{MOST_PRICE, MOST_QUANTITY};

/// A quantity in kWh and a price in cents per MWh.
pub type Energy = (u32, u32);

/// Some divisors of 10,000, so that both the quantity and the price have a part of it.
const DIVISORS: [u32; 8] = [1, 8, 16, 25, 100, 625, 2_000, 10_000];

/// Remainders by 20,000 of products next to a half; the amounts of the last two are nearest to it,
/// 1 / 20,000 of a cent away.
const NEXT: [u32; 4] = [9_999, 10_001, 3_913, 16_087];

/// Cents of room on a side that tell how a half is rounded: the product 10,000 comes to 12 cents
/// and 30,000 to 34, so that the cent less refuses it.
pub const ROOMS: [u64; 4] = [11, 12, 33, 34];

/// The half that such a room is for; nothing for any other room.
pub fn half_for(random: &mut Random, room: u128) -> Option<Energy> {
    let odd = match room {
        11 | 12 => 1,
        33 | 34 => 3,
        _ => return None,
    };
    let divisor = random.pick(&DIVISORS);
    Some((odd * divisor, 10_000 / divisor))
}

/// An odd number up to the most: any, or one of the two largest.
fn odd(random: &mut Random, most: u32) -> u32 {
    let last = (most - 1) / 2;
    let any = random.between(0, last.into()) as u32;
    2 * random.pick(&[any, any, any, last, last.saturating_sub(1)]) + 1
}

/// Both factors of 10,000 times odd numbers.
fn half(random: &mut Random, scale: Scale) -> Energy {
    let most = match scale {
        Scale::Few => 3,
        Scale::Hundreds => 5,
        Scale::Millions => 9_999,
        Scale::Bound => MOST_QUANTITY,
    };
    let divisor = random.pick(&DIVISORS);
    let other = 10_000 / divisor;
    let quantity = divisor * odd(random, most.min(MOST_QUANTITY / divisor));
    (quantity, other * odd(random, most.min(MOST_PRICE / other)))
}

/// One above a multiple of 20,000, times a factor that is next to a half by itself.
fn next_to_half(random: &mut Random, scale: Scale) -> Energy {
    let (ones, nexts) = match scale {
        Scale::Few => (0, 1),
        Scale::Hundreds => (0, 12),
        Scale::Millions => (49, 49),
        Scale::Bound => (4_999, 499),
    };
    let one = 20_000 * random.between(0, ones) as u32 + 1;
    let next = 20_000 * random.between(0, nexts) as u32 + random.pick(&NEXT);
    if one <= MOST_PRICE && random.chance(1, 2) {
        (next, one)
    } else {
        (one, next)
    }
}

fn of_any_product(random: &mut Random, scale: Scale) -> Energy {
    let (quantity, price) = match scale {
        // Whole cents, odd ones and even ones.
        Scale::Few if random.chance(1, 6) => (random.pick(&[2, 4, 6, 20]) * 100, 100),
        Scale::Few => (random.below(120), random.below(120)),
        Scale::Hundreds => (random.below(2_000), random.below(150)),
        Scale::Millions => (random.below(1_000_000), random.below(1_000_000)),
        Scale::Bound => {
            let (most, dearest) = (u64::from(MOST_QUANTITY), u64::from(MOST_PRICE));
            let (q, p) = (random.below(most), random.below(dearest));
            (random.pick(&[0, 1, q, most - 1, most]), random.pick(&[0, 1, p, dearest - 1, dearest]))
        }
    };
    (quantity as u32, price as u32)
}

/// A quantity and a price of a scale; two of eight are a half, and one is next to a half.
pub fn any(random: &mut Random, scale: Scale) -> Energy {
    match random.below(8) {
        0 | 1 => half(random, scale),
        2 => next_to_half(random, scale),
        _ => of_any_product(random, scale),
    }
}

#[cfg(test)]
mod tests {
    use super::*;
    use reckoning::rules::month::energy_cents;

    /// Of 100,000 so many are left of the amount.
    fn left(&(quantity, price): &Energy) -> u64 {
        u64::from(quantity) * u64::from(price) * 115 % 100_000
    }

    /// No comparison would tell: no sight is of what is next to a half, and those of a bound come of
    /// cases by hand too.
    #[test]
    fn what_is_next_to_a_half_is_so_and_a_room_gets_its_half() {
        let mut random = Random::new(6);
        for scale in Scale::ALL.into_iter().cycle().take(1_000) {
            let next = next_to_half(&mut random, scale);
            assert!([49_885, 50_115, 49_995, 50_005].contains(&left(&next)), "{scale:?}: {next:?}");
            let room = u128::from(random.pick(&ROOMS));
            let half = half_for(&mut random, room).expect("each room has a half");
            let cents = energy_cents(half.0, half.1);
            assert!(left(&half) == 50_000 && (cents == room || cents == room + 1), "{half:?}");
        }
    }
}
