//! The feeds in the folder feeds/ that are for a class: a book of eight participants and three periods
//! (02, f).

use crate::cases::Case;
use reckoning::rules::codec::Entry;
use reckoning::rules::limits::{DEMONSTRATION, MARKET};
use reckoning::rules::refusals::{ACCEPTED, NOT_ABOVE_HIGHEST, N_REFUSED, PERIODS_AT_LIMIT};

/// A list that a demonstration book takes, n = 4, with every kind of entry. Period 1: owing by 0: 300,
/// by 1: 200; to 2: tier 1 100, tier 5 200, to 3: tier 5 200. Payer 0 has s = 300 and g = 400, so that
/// retention is 150 for 2 and for 3; payable are 300 and 200. Payer 1 pays 50, and its arrears are 150.
/// Of the 350 there, tier 1 takes 100 and tier 5 250 of 400, 125 each. Period 2 is energy of 230 cents,
/// from 0 to 3; payer 0 has sent 250 early. Period 3 has 92 cents, 322 less 230: owing by 1, where the
/// quantity went up, and owing to 3, where it went down.
/// Then three periods are in the book. 75 late in period 1 are 37 1/2 for 2 and for 3; the remainders
/// are equal, and the leftover cent goes to 2. The other 75 are 37 and 38. Period 2 draws 230 of the
/// 250, and 20 stay.
pub fn class() -> Case {
    Case::new("the example feed of a class", 4)
        .within(&[DEMONSTRATION, MARKET])
        .stand([Entry::open(1), Entry::amount(1, 0, 0, 0, 300), Entry::amount(1, 1, 0, 0, 200)])
        .stand([Entry::amount(1, 2, 1, 1, 100), Entry::amount(1, 2, 1, 5, 200)])
        .stand([Entry::amount(1, 3, 1, 5, 200), Entry::notice(1)])
        .holds(Entry::receipt(1, 0, 300), 300)
        .holds(Entry::receipt(1, 1, 50), 350)
        .pays(Entry::settle(1), [0, 0, 225, 125], 0)
        .stand([Entry::open(2), Entry::energy(2, 0, 0, 10, 20_000)])
        .stand([Entry::energy(2, 3, 1, 10, 20_000)])
        .holds(Entry::purse(0, 250), 250)
        .stand([Entry::notice(2), Entry::open(3), Entry::washup(3, 1, 1, 0, 10, 14, 20_000)])
        .stand([Entry::washup(3, 2, 3, 0, 14, 10, 20_000)])
        .pays(Entry::receipt(1, 1, 75), [0, 0, 38, 37], 250)
        .pays(Entry::settle(2), [0, 0, 0, 230], 20)
        .stand([Entry::notice(3)])
        .pays(Entry::receipt(1, 1, 75), [0, 0, 37, 38], 20)
        .holds(Entry::receipt(3, 1, 92), 112)
        .pays(Entry::settle(3), [0, 0, 0, 92], 20)
}

impl Case {
    /// An opening that gets some answer.
    fn opening(self, period: u32, answer: u8) -> Case {
        match answer {
            ACCEPTED => self.stand([Entry::open(period)]),
            _ => self.refused(Entry::open(period), answer),
        }
    }
}

/// A list that reaches the limit of three periods, n = 2, with the answers to its openings from period
/// 4 on. In period 1 payer 0 owes 100 to participant 1 and pays 60 in time: 60 are paid, and with
/// arrears of 40 the period stays.
fn to_three_periods(name: &str, openings: [u8; 5]) -> Case {
    Case::new(name, 2)
        .stand([Entry::open(1), Entry::amount(1, 0, 0, 0, 100), Entry::amount(1, 1, 1, 5, 100)])
        .stand([Entry::notice(1)])
        .holds(Entry::receipt(1, 0, 60), 60)
        .pays(Entry::settle(1), [0, 60], 0)
        .stand([Entry::open(2), Entry::open(3)])
        .opening(4, openings[0])
        .opening(3, openings[1])
        .pays(Entry::receipt(1, 0, 40), [0, 40], 0)
        .opening(4, openings[2])
        .opening(5, openings[3])
        .stand([Entry::notice(2), Entry::settle(2)])
        .opening(5, openings[4])
}

/// The fourth period is 7 while three are in the book, one of them settled with arrears; 6 comes before
/// 7. Once the arrears are paid the same period is accepted, and the fifth is 7 until an empty one left.
pub fn class_limits() -> Case {
    let (full, not_above) = (PERIODS_AT_LIMIT, NOT_ABOVE_HIGHEST);
    let openings = [full, not_above, ACCEPTED, full, ACCEPTED];
    to_three_periods("the example feed of a class's limits", openings).within(&[DEMONSTRATION])
}

/// The same in the market's book, where period 4 is opened at once, and so is 5: opened again they are
/// not above the highest.
fn class_limits_in_the_market() -> Case {
    let not_above = NOT_ABOVE_HIGHEST;
    let openings = [ACCEPTED, not_above, not_above, ACCEPTED, not_above];
    to_three_periods("a class's limits in the market", openings).within(&[MARKET])
}

/// A list for nine participants, in which payer 0 owes 100 to the ninth and pays them. The market's book
/// takes it.
pub fn class_nine() -> Case {
    Case::new("the example feed of nine", 9)
        .within(&[MARKET])
        .stand([Entry::open(1), Entry::amount(1, 0, 0, 0, 100), Entry::amount(1, 8, 1, 5, 100)])
        .stand([Entry::notice(1)])
        .holds(Entry::receipt(1, 0, 100), 100)
        .pays(Entry::settle(1), [0, 0, 0, 0, 0, 0, 0, 0, 100], 0)
}

/// The same in a demonstration book, which is refused.
fn class_nine_refused() -> Case {
    let start = Case::new("nine in a demonstration book", 9).within(&[DEMONSTRATION]);
    let refused = |case: Case, entry| case.refused(entry, N_REFUSED);
    class_nine().steps.iter().map(|step| step.entry).fold(start, refused)
}

pub fn cases() -> Vec<Case> {
    vec![class(), class_limits(), class_nine_refused(), class_limits_in_the_market(), class_nine()]
}
