//! The earlier periods of 02, e.

use crate::rules::codec::Entry;
use crate::rules::washup;

/// The 24 numbers that an earlier period may have, but for those below 0.
fn earlier_periods(period: u32) -> Vec<u32> {
    (1..=24).filter_map(|below| period.checked_sub(below)).collect()
}

/// From 1 below to 24 below, and no other: also where the period is below 24 or the last.
#[test]
fn an_earlier_period_stands_just_1_to_24_below() {
    let near = |number: u32| (-60..=60).map(move |by| number.wrapping_add_signed(by));
    for period in [0, 1, 2, 23, 24, 25, 26, 1 << 31, u32::MAX - 1, u32::MAX] {
        for earlier in near(period).chain(near(0)).chain([1 << 31, u32::MAX]) {
            let entry = Entry::washup(period, earlier, 0, 0, 0, 0, 0);
            let stands = earlier_periods(period).contains(&earlier);
            assert_eq!(washup::earlier_stands(&entry), stands, "{period} {earlier}");
        }
    }
}
