//! Cases of washups (02, e) by hand on sides that are at their bound, or nearly: 11 is tested where
//! the amount goes. 1 kWh at 20,000 is 23 cents, at 20,870 it is 24.0005, at 11,304 it is 12.9996.

use crate::cases::Case;
use reckoning::rules::codec::{Entry, MOST_CENTS};
use reckoning::rules::refusals::*;

const BOUND: u128 = MOST_CENTS as u128;
const PERIOD: u32 = 30;

/// A washup of a participant, for an earlier period that stands.
fn washup(participant: u8, side: u8, kwh: (u32, u32), price: u32) -> Entry {
    Entry::washup(PERIOD, PERIOD - 24, participant, side, kwh.0, kwh.1, price)
}

/// The same for the period itself.
fn of_itself(entry: Entry) -> Entry {
    Entry { earlier_period: PERIOD, ..entry }
}

impl Case {
    /// On sides that are both full: up and down are 11, by a cent too, with the period itself 16; what
    /// adds nothing stands.
    fn on_full_sides(mut self) -> Case {
        for side in [0, 1] {
            // 0.46 and 0.575 cents, 0 and 1.
            for kwh in [(4, 5), (5, 4), (0, 100_000), (100_000, 0)] {
                let entry = washup(1, side, kwh, 100);
                self = self.refused(entry, TOTAL_PASSES_BOUND);
                self = self.refused(of_itself(entry), EARLIER_PERIOD_OUTSIDE);
            }
            for kwh in [(5, 5), (5, 6), (6, 5), (0, 0), (100_000_000, 100_000_000)] {
                let entry = washup(1, side, kwh, 100);
                self = self.stand([entry]).refused(of_itself(entry), EARLIER_PERIOD_OUTSIDE);
            }
        }
        self
    }
}

/// Side 0 has room for 23 cents: 24 are refused, and 23,023 less 23,000 fill it. Down from it goes
/// to side 1, as 23 cents of participant 0, and up or down onto it is refused. Side 1 has room for
/// 12: 13 are refused, and 11,511.5 less 11,500 fill it.
///
/// B is 23 of 0 and the rest of 2; O is 35 of 0 and the rest of 1. Retention is 35 × (bound − 23) /
/// bound rounded up, 35, and for 1 bound − 57. So 23 and bound − 23 are payable by 0 and 2.
fn side_0_first() -> Case {
    Case::new("side 0 to its bound first", 3)
        .stand([Entry::open(PERIOD), Entry::amount(PERIOD, 2, 0, 0, MOST_CENTS - 23)])
        .refused(washup(0, 0, (0, 1), 20_870), TOTAL_PASSES_BOUND)
        .refused(of_itself(washup(0, 0, (0, 1), 20_870)), EARLIER_PERIOD_OUTSIDE)
        .stand([washup(0, 0, (1_000, 1_001), 20_000)])
        .refused(washup(0, 0, (4, 5), 100), TOTAL_PASSES_BOUND)
        .stand([washup(0, 0, (1, 0), 20_000)])
        .refused(washup(0, 1, (1, 0), 20_000), TOTAL_PASSES_BOUND)
        .stand([washup(0, 0, (9, 9), 20_000), Entry::amount(PERIOD, 1, 1, 5, MOST_CENTS - 23 - 12)])
        .refused(washup(0, 0, (1, 0), 11_304), TOTAL_PASSES_BOUND)
        .stand([washup(0, 0, (100_100, 100_000), 100)])
        .on_full_sides()
        .stand([Entry::notice(PERIOD)])
        .holds(Entry::receipt(PERIOD, 0, 23), 23)
        .holds(Entry::receipt(PERIOD, 2, MOST_CENTS - 23), BOUND)
        .pays(Entry::settle(PERIOD), [35, MOST_CENTS - 35, 0], 0)
}

/// Side 1 has room for 23 cents, which participant 1 gets; down from side 1 goes to side 0, as 12
/// cents of payer 0, and up or down onto side 1 is refused. Down from side 1 fills side 0 too: 24 are
/// refused where 23 have room.
///
/// B is 12 + 23 of 0 and the rest of 2; O is 23 of 1 and the rest of 1 in tier 1. For 2, s is bound −
/// 35 and g is 23, so that A is 23 for 1; it pays nothing, and gets all.
fn side_1_first() -> Case {
    Case::new("side 1 to its bound first", 3)
        .stand([Entry::open(PERIOD), Entry::amount(PERIOD, 1, 1, 1, MOST_CENTS - 23)])
        .refused(washup(1, 1, (0, 1), 20_870), TOTAL_PASSES_BOUND)
        .refused(washup(1, 0, (1, 0), 20_870), TOTAL_PASSES_BOUND)
        .stand([washup(1, 0, (1_001, 1_000), 20_000)])
        .refused(washup(1, 1, (4, 5), 100), TOTAL_PASSES_BOUND)
        .refused(washup(1, 0, (5, 4), 100), TOTAL_PASSES_BOUND)
        .stand([washup(0, 1, (100, 0), 100), washup(0, 1, (9, 9), 100)])
        .stand([Entry::amount(PERIOD, 2, 0, 0, MOST_CENTS - 12 - 23)])
        .refused(washup(0, 1, (1, 0), 20_870), TOTAL_PASSES_BOUND)
        .stand([washup(0, 1, (1_001, 1_000), 20_000)])
        .on_full_sides()
        .stand([Entry::notice(PERIOD)])
        .holds(Entry::receipt(PERIOD, 0, 35), 35)
        .holds(Entry::receipt(PERIOD, 2, MOST_CENTS - 35), BOUND)
        .pays(Entry::settle(PERIOD), [0, MOST_CENTS, 0], 0)
}

pub fn cases() -> Vec<Case> {
    vec![side_0_first(), side_1_first()]
}
