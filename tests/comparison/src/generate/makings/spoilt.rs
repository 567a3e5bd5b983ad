//! Random limits and n that stand, and makings that are spoilt, so that they are refused.

use crate::generate::makings::{limits, LAST, OUTSIDE_PARTICIPANTS, OUTSIDE_PERIODS};
use crate::generate::random::Random;
use reckoning::rules::limits::{Limits, MOST_PARTICIPANTS, MOST_PERIODS};
use reckoning::rules::making::{Making, GROUPS, MOST_RESERVE};

/// Limits that stand; small ones and those at a bound are frequent.
pub fn any_limits(random: &mut Random) -> Limits {
    let participants = random.between(1, MOST_PARTICIPANTS);
    let periods = random.between(1, MOST_PERIODS);
    limits(
        random.pick(&[1, 2, 3, 6, 8, participants, participants, MOST_PARTICIPANTS]),
        random.pick(&[1, 2, 3, 3, periods, periods, MOST_PERIODS]),
    )
}

/// An n that a book of some limits takes; small ones are frequent, and the limit itself.
pub fn any_n(random: &mut Random, limits: Limits) -> u64 {
    let most = limits.participants;
    let (any, few) = (random.between(1, most), random.between(1, most.min(6)));
    random.pick(&[any, few, few, (most - 1).max(1), most])
}

/// Puts a group number outside its values below n.
fn spoil_group(random: &mut Random, making: &mut Making) {
    let last = making.n.clamp(1, GROUPS as u64) - 1;
    let any = random.between(0, last);
    let place = random.pick(&[0, any, last]) as usize;
    let above = random.between(64, 255) as u8;
    making.groups[place] = random.pick(&[64, 65, 128, 255, above]);
}

/// Puts a reserve above its bound: of a group with members, of any, or of group 63.
fn spoil_reserve(random: &mut Random, making: &mut Making) {
    let used = usize::from(making.groups[0]) % GROUPS;
    let any = random.below(GROUPS as u64) as usize;
    let above = random.any().max(MOST_RESERVE + 1);
    making.reserves[random.pick(&[used, any, LAST])] =
        random.pick(&[MOST_RESERVE + 1, u64::MAX, above]);
}

/// A right making with a group, a reserve or n spoilt, or more of them.
pub fn any_refused(random: &mut Random, right: &Making) -> Making {
    let mut making = right.clone();
    let what = random.between(1, 7);
    if what & 1 != 0 {
        spoil_group(random, &mut making);
    }
    if what & 2 != 0 {
        spoil_reserve(random, &mut making);
    }
    if what & 4 != 0 {
        let any = random.any().max(65);
        making.n = random.pick(&[0, 65, 255, 1 << 32, any, u64::MAX, right.n + 256]);
    }
    making
}

/// A right making with n or a limit spoilt, and at times a group or a reserve too.
pub fn any_refused_with_4(random: &mut Random, right: &Making) -> Making {
    let mut making = right.clone();
    match random.below(4) {
        0 => spoil_group(random, &mut making),
        1 => spoil_reserve(random, &mut making),
        _ => (),
    }
    let any = random.any();
    match random.below(4) {
        0 => {
            let above = right.limits.participants + 1;
            making.n = random.pick(&[0, above, above, any.max(above)]);
        }
        1 => making.limits.participants = random.pick(&[0, 65, 65, any.max(65)]),
        2 => making.limits.periods = random.pick(&[0, 13, 13, any.max(13)]),
        _ => {
            making.limits =
                limits(random.pick(&OUTSIDE_PARTICIPANTS), random.pick(&OUTSIDE_PERIODS))
        }
    }
    making
}

#[cfg(test)]
mod tests {
    use super::*;
    use reckoning::rules::refusals::N_REFUSED;

    /// The trials would not tell: the cases alone show them makings with every answer.
    #[test]
    fn what_is_spoilt_is_refused() {
        let mut random = Random::new(5);
        for _ in 0..1_000 {
            let of = any_limits(&mut random);
            let right = Making::within(of, any_n(&mut random, of));
            assert_eq!(right.refusal(), None, "{right:?}");
            let spoilt = any_refused(&mut random, &right);
            assert!(spoilt.refusal().is_some(), "{spoilt:?}");
            let with_4 = any_refused_with_4(&mut random, &right);
            assert_eq!(with_4.refusal(), Some(N_REFUSED), "{with_4:?}");
        }
    }
}
