//! Energy at an exact half of a cent (02, b), next to one and at whole cents. Each is put to a side
//! that is full but for its cents, for a cent less and for a cent more.

use crate::cases::Case;
use reckoning::rules::book::MOST_TOTAL;
use reckoning::rules::codec::Entry;
use reckoning::rules::refusals::{PERIOD_NOT_IN_BOOK, RECEIPT_ABOVE, TOTAL_PASSES_BOUND};

/// The bound of a side's total, which is also the most cents of a receipt.
const BOUND: u64 = MOST_TOTAL as u64;

/// Quantities, prices and the cents that they come to, reckoned by hand.
const ENERGIES: [(u32, u32, u64); 26] = [
    // 11.5, 34.5, 57.5 and 80.5.
    (10_000, 1, 12),
    (100, 100, 12),
    (16, 625, 12),
    (1, 30_000, 34),
    (100, 300, 34),
    (625, 48, 34),
    (5, 10_000, 58),
    (70_000, 1, 80),
    // 11.49885 and 11.50115, 34.49885 and 34.50115.
    (9_999, 1, 11),
    (1, 10_001, 12),
    (29_999, 1, 34),
    (1, 30_001, 35),
    // 4.49995 and 18.50005: no amount is nearer to a half.
    (3_913, 1, 4),
    (1, 16_087, 19),
    // 1,148,849,988,511.5 and 1,146,549,988,534.5.
    (99_999_999, 9_990_000, 1_148_849_988_512),
    (99_999_999, 9_970_000, 1_146_549_988_534),
    // 1,148,849,873,511.50115 and 1,148,850,103,511.49885.
    (99_999_999, 9_989_999, 1_148_849_873_512),
    (99_999_999, 9_990_001, 1_148_850_103_511),
    // 1,146,549,873,534.50115 and 1,146,550,103,534.49885.
    (99_999_999, 9_969_999, 1_146_549_873_535),
    (99_999_999, 9_970_001, 1_146_550_103_534),
    // 1,145,620,836,459.49995 and 1,149,320,106,494.50005.
    (99_980_001, 9_963_913, 1_145_620_836_459),
    (99_980_001, 9_996_087, 1_149_320_106_495),
    // Whole cents.
    (0, 10_000_000, 0),
    (200, 100, 23),
    (400, 100, 46),
    (100_000_000, 10_000_000, 1_150_000_000_000),
];

/// Energy of participant 1 on a side, and its cents.
#[derive(Clone, Copy)]
struct Energy {
    quantity: u32,
    price: u32,
    cents: u64,
    side: u8,
}

impl Case {
    /// A month whose side has so much room for the energy. The rest of that side is 0's, and the other
    /// side is 2's. It is paid in full, so that the period leaves.
    fn month_of_energy(self, period: u32, room: u64, energy: Energy) -> Case {
        let Energy { quantity, price, cents, side } = energy;
        let on = |side: u8, participant, cents| {
            Entry::amount(period, participant, side, 5 * side, cents)
        };
        let entry = Entry::energy(period, 1, side, quantity, price);
        let start = self.stand([Entry::open(period), on(side, 0, BOUND - room)]);
        let (added, case) = match cents <= room {
            true => (cents, start.stand([entry])),
            false => (0, start.refused(entry, TOTAL_PASSES_BOUND)),
        };
        let left = room - added;
        let rest = (left > 0).then(|| on(side, 0, left));
        let case = case.refused(on(side, 0, left + 1), TOTAL_PASSES_BOUND).stand(rest);
        let case = case.stand([on(1 - side, 2, BOUND), Entry::notice(period)]);
        let (of_side, of_other) = ([BOUND - added, added, 0], [0, 0, BOUND]);
        let (payable, payouts) = if side == 0 { (of_side, of_other) } else { (of_other, of_side) };
        case.receipts(period, payable)
            .pays(Entry::settle(period), payouts, 0)
            .refused(Entry::settle(period), PERIOD_NOT_IN_BOOK)
    }

    /// Each payer sends a cent above what is payable, if a receipt can be as large, and then that.
    fn receipts(mut self, period: u32, payable: [u64; 3]) -> Case {
        for (payer, cents) in (0..).zip(payable) {
            if cents < BOUND {
                self = self.refused(Entry::receipt(period, payer, cents + 1), RECEIPT_ABOVE);
            }
            if cents > 0 {
                let held = self.held() + u128::from(cents);
                self = self.holds(Entry::receipt(period, payer, cents), held);
            }
        }
        self
    }
}

/// Three months, with a cent less, just the cents and a cent more of room.
fn case(energy: Energy) -> Case {
    let Energy { quantity, price, cents, side } = energy;
    let start = Case::new(format!("{quantity} kWh at {price} on side {side}"), 3);
    let rooms = [cents.checked_sub(1), Some(cents), Some(cents + 1)].into_iter().flatten();
    (1..).zip(rooms).fold(start, |case, (period, room)| case.month_of_energy(period, room, energy))
}

/// Every case, on both sides.
pub fn cases() -> Vec<Case> {
    let of =
        |(quantity, price, cents)| [0, 1].map(|side| case(Energy { quantity, price, cents, side }));
    ENERGIES.into_iter().flat_map(of).collect()
}
