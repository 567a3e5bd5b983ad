//! The feeds that stand in the folder feeds/.

use crate::cases::class_feeds::{class, class_limits, class_nine};
use crate::cases::Case;
use reckoning::rules::codec::{Entry, MOST_CENTS};
use reckoning::rules::month_a;
use reckoning::rules::refusals::{EARLIER_PERIOD_OUTSIDE, PURSE_PASSES_BOUND};

/// Money paid early (02, c). Before period 7, month A, is opened, payer 0 sends 300 of the 600 and
/// payer 2 sends 500, where 334 will be payable. At its settlement the 300 and 334 are drawn, so
/// that it pays as month A does, and 166 of payer 2 stay. Payer 0 pays its arrears of 300,
/// and the period leaves. In period 8 owing by 2 and owing to 1 are 150 each; retention is 150 for
/// participant 1, and 150 are payable by payer 2. 150 of the 166 are drawn, and 16 stay. The last
/// entry would bring that purse past its bound.
pub fn purse() -> Case {
    Case::new("the example feed", 3)
        .holds(Entry::purse(0, 300), 300)
        .holds(Entry::purse(2, 500), 800)
        .month_a_to_notice(7)
        .pays(Entry::settle(7), [0, 567, 67], 166)
        .pays(Entry::receipt(7, 0, 300), [0, 233, 67], 166)
        .stand([Entry::open(8), Entry::amount(8, 2, 0, 0, 150), Entry::amount(8, 1, 1, 5, 150)])
        .stand([Entry::notice(8)])
        .pays(Entry::settle(8), [0, 150, 0], 16)
        .refused(Entry::purse(2, MOST_CENTS), PURSE_PASSES_BOUND)
}

/// Washups (02, e) of period 30. Energy is 2,300 cents by 0 and 2,300 to 1. Up from 100 to 300 kWh at
/// 100: 34 less 12, 22 by 0. Down from 80 to 60 at 20,000: 1,380 less 1,840, so 460 by 1, though side
/// 1 is stated. 50 and 51 at 10 are both 1 cent. Period 5 is 25 below. Then 230 by 2 and, back, 230
/// to 2; 482 in tier 1 make both sides 3,012. For payer 0 s is 2,322 and g 2,530: retention is
/// 2,111 for 1 and 212 for 2, payable are 2,322, 460 − 2,300 + 2,111 and 0, and claims 0, 2,111, 482.
pub fn washup() -> Case {
    Case::new("the example feed", 3)
        .stand([Entry::open(30), Entry::energy(30, 0, 0, 100, 20_000)])
        .stand([Entry::energy(30, 1, 1, 100, 20_000), Entry::washup(30, 28, 0, 0, 100, 300, 100)])
        .stand([
            Entry::washup(30, 27, 1, 1, 80, 60, 20_000),
            Entry::washup(30, 29, 2, 1, 50, 51, 10),
        ])
        .refused(Entry::washup(30, 5, 2, 0, 10, 20, 20_000), EARLIER_PERIOD_OUTSIDE)
        .stand([Entry::washup(30, 6, 2, 0, 10, 20, 20_000)])
        .stand([Entry::washup(30, 6, 2, 0, 20, 10, 20_000)])
        .stand([Entry::amount(30, 2, 1, 1, 482), Entry::notice(30)])
        .holds(Entry::receipt(30, 0, 2_322), 2_322)
        .holds(Entry::receipt(30, 1, 271), 2_593)
        .pays(Entry::settle(30), [0, 2_111, 482], 0)
}

/// The name of each example, as a use of the program and, with `.feed`, as a file.
pub const NAMES: [&str; 6] = ["month-a", "purse", "washup", "class", "class-limits", "class-nine"];

/// The bytes of an example; nothing for a name that there is not.
pub fn example(name: &str) -> Option<Vec<u8>> {
    match name {
        "month-a" => Some(month_a::feed()),
        "purse" => Some(purse().feed()),
        "washup" => Some(washup().feed()),
        "class" => Some(class().feed()),
        "class-limits" => Some(class_limits().feed()),
        "class-nine" => Some(class_nine().feed()),
        _ => None,
    }
}

#[cfg(test)]
mod tests {
    use super::*;
    use reckoning::programs::listing::listing_within;
    use reckoning::rules::limits::{Limits, DEMONSTRATION, MARKET};
    use std::fs;
    use std::path::Path;

    const PURSE: &str =
        "entry answer paid held\n1 0 0 300\n2 0 0 800\n3 0 0 800\n4 0 0 800\n5 0 0 800\n\
         6 0 0 800\n7 0 0 800\n8 0 0 800\n9 0 0 800\n10 0 634 166\npay 1 567\npay 2 67\n\
         11 0 300 166\npay 1 233\npay 2 67\n12 0 0 166\n13 0 0 166\n14 0 0 166\n\
         15 0 0 166\n16 0 150 16\npay 1 150\n17 15 0 16\n";
    const WASHUP: &str =
        "entry answer paid held\n1 0 0 0\n2 0 0 0\n3 0 0 0\n4 0 0 0\n5 0 0 0\n6 0 0 0\n\
         7 16 0 0\n8 0 0 0\n9 0 0 0\n10 0 0 0\n11 0 0 0\n12 0 0 2322\n13 0 0 2593\n\
         14 0 2593 0\npay 1 2111\npay 2 482\n";
    const CLASS: &str =
        "entry answer paid held\n1 0 0 0\n2 0 0 0\n3 0 0 0\n4 0 0 0\n5 0 0 0\n6 0 0 0\n\
         7 0 0 0\n8 0 0 300\n9 0 0 350\n10 0 350 0\npay 2 225\npay 3 125\n11 0 0 0\n\
         12 0 0 0\n13 0 0 0\n14 0 0 250\n15 0 0 250\n16 0 0 250\n17 0 0 250\n18 0 0 250\n\
         19 0 75 250\npay 2 38\npay 3 37\n20 0 230 20\npay 3 230\n21 0 0 20\n\
         22 0 75 20\npay 2 37\npay 3 38\n23 0 0 112\n24 0 92 20\npay 3 92\n";
    const CLASS_LIMITS: &str =
        "entry answer paid held\n1 0 0 0\n2 0 0 0\n3 0 0 0\n4 0 0 0\n5 0 0 60\n\
         6 0 60 0\npay 1 60\n7 0 0 0\n8 0 0 0\n9 7 0 0\n10 6 0 0\n11 0 40 0\npay 1 40\n\
         12 0 0 0\n13 7 0 0\n14 0 0 0\n15 0 0 0\n16 0 0 0\n";
    const CLASS_LIMITS_IN_THE_MARKET: &str =
        "entry answer paid held\n1 0 0 0\n2 0 0 0\n3 0 0 0\n4 0 0 0\n5 0 0 60\n\
         6 0 60 0\npay 1 60\n7 0 0 0\n8 0 0 0\n9 0 0 0\n10 6 0 0\n11 0 40 0\npay 1 40\n\
         12 6 0 0\n13 0 0 0\n14 0 0 0\n15 0 0 0\n16 6 0 0\n";
    const CLASS_NINE_REFUSED: &str =
        "entry answer paid held\n1 4 0 0\n2 4 0 0\n3 4 0 0\n4 4 0 0\n5 4 0 0\n6 4 0 0\n";
    const CLASS_NINE: &str =
        "entry answer paid held\n1 0 0 0\n2 0 0 0\n3 0 0 0\n4 0 0 0\n5 0 0 100\n\
         6 0 100 0\npay 8 100\n";

    #[test]
    fn the_files_are_these_examples() {
        let folder = Path::new(env!("CARGO_MANIFEST_DIR")).join("../../feeds");
        for name in NAMES {
            let file = fs::read(folder.join(format!("{name}.feed"))).expect("a file of that name");
            assert_eq!(example(name), Some(file), "{name}");
        }
        assert_eq!(fs::read_dir(folder).unwrap().count(), NAMES.len());
        assert_eq!(example("month-b"), None);
    }

    /// By the limits of the book that lists it.
    #[test]
    fn each_example_has_its_listing() {
        let hold = |name: &str, limits: Limits, text: &str| {
            let found = listing_within(limits, &example(name).expect("a name that exists"));
            assert_eq!(String::from_utf8(found).unwrap(), text, "{name} {limits:?}");
        };
        hold("purse", MARKET, PURSE);
        hold("washup", MARKET, WASHUP);
        hold("class", DEMONSTRATION, CLASS);
        hold("class", MARKET, CLASS);
        hold("class-limits", DEMONSTRATION, CLASS_LIMITS);
        hold("class-limits", MARKET, CLASS_LIMITS_IN_THE_MARKET);
        hold("class-nine", DEMONSTRATION, CLASS_NINE_REFUSED);
        hold("class-nine", MARKET, CLASS_NINE);
    }
}
