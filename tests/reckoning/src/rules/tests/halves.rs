//! Examples of 02, b, reckoned by hand, and its words put over many products.

use crate::rules::book::{Book, MOST_TOTAL};
use crate::rules::codec::{Entry, MOST_PRICE, MOST_QUANTITY};
use crate::rules::month::energy_cents;

/// 02's own figures, and those of 01 that it leaves.
#[test]
fn the_products_that_01_and_02_name() {
    assert_eq!(energy_cents(30_000, 1), 34);
    assert_eq!(energy_cents(10_000, 1), 12);
    assert_eq!(energy_cents(9_999, 1), 11);
    assert_eq!(energy_cents(0, 1), 0);
}

/// 11.5, 34.5, 57.5, 80.5, 103.5 and 126.5 cents.
#[test]
fn a_half_goes_to_the_even_cent() {
    let even = [(1, 12), (3, 34), (5, 58), (7, 80), (9, 104), (11, 126)];
    for (odd, cents) in even {
        assert_eq!(energy_cents(odd * 10_000, 1), cents, "{odd}");
        assert_eq!(energy_cents(1, odd * 10_000), cents, "{odd}");
        assert_eq!(energy_cents(100, odd * 100), cents, "{odd}");
        assert_eq!(energy_cents(odd * 625, 16), cents, "{odd}");
    }
}

/// 11.49885 and 11.50115 cents, and 34.49885 and 34.50115: all but the half itself goes to the
/// nearest.
#[test]
fn next_to_a_half_the_nearest_is_taken() {
    assert_eq!([9_999, 10_001].map(|product| energy_cents(product, 1)), [11, 12]);
    assert_eq!([29_999, 30_001].map(|product| energy_cents(1, product)), [34, 35]);
}

/// 4.49995 and 18.50005 cents. 99,980,001 × 9,996,087 is 999,608,700,000,000 − 199,911,743,913, so
/// 999,408,788,256,087, and 1,149,320,106,494.50005 cents.
#[test]
fn the_amounts_nearest_to_a_half_are_no_half() {
    assert_eq!([3_913, 16_087].map(|product| energy_cents(product, 1)), [4, 19]);
    assert_eq!(energy_cents(99_980_001, 9_996_087), 1_149_320_106_495);
}

/// In 100,000ths of a cent: products that differ by 20,000 have the same fraction.
#[test]
fn no_amount_is_nearer_to_a_half() {
    let from_half = |product: u64| (product * 115 % 100_000).abs_diff(50_000);
    let near: Vec<u64> = (0..20_000).filter(|&product| from_half(product) <= 5).collect();
    assert_eq!(near, [3_913, 10_000, 16_087]);
    assert_eq!([3_913, 10_000, 16_087].map(from_half), [5, 0, 5]);
}

/// A product of 20,000 is 23 cents, of 40,000 is 46 and of 60,000 is 69.
#[test]
fn whole_cents_stay_even_or_odd() {
    let whole = [(20_000, 23), (40_000, 46), (60_000, 69)];
    for (product, cents) in whole {
        assert_eq!(energy_cents(product, 1), cents);
    }
}

/// 99,999,999 × 9,990,000 is 999,000,000,000,000 − 9,990,000, so 998,999,990,010,000. A thousandth
/// of it is 998,999,990,010 and 15 % of that 149,849,998,501.5: 1,148,849,988,511.5 cents.
#[test]
fn a_half_of_the_largest_quantity_that_has_one_goes_up() {
    assert_eq!(energy_cents(99_999_999, 9_990_000), 1_148_849_988_512);
}

/// 99,999,999 × 9,970,000 is 997,000,000,000,000 − 9,970,000, so 996,999,990,030,000. A thousandth
/// of it is 996,999,990,030 and 15 % of that 149,549,998,504.5: 1,146,549,988,534.5 cents.
#[test]
fn a_half_of_the_largest_quantity_that_has_one_goes_down() {
    assert_eq!(energy_cents(99_999_999, 9_970_000), 1_146_549_988_534);
}

/// 99,999,750 × 9,999,960 is 999,993,500,010,000, and 1,149,992,525,011.5 cents; 99,999,500 ×
/// 9,999,940 is 999,989,000,030,000, and 1,149,987,350,034.5 cents.
#[test]
fn the_largest_products_that_have_a_half() {
    assert_eq!(energy_cents(99_999_750, 9_999_960), 1_149_992_525_012);
    assert_eq!(energy_cents(99_999_500, 9_999_940), 1_149_987_350_034);
}

/// With 10^8 kWh a cent of the price is 115,000 cents; 10^15 of product are 1.15 × 10^12.
#[test]
fn the_largest_quantity_has_no_half() {
    assert!((0..=MOST_PRICE).step_by(7).all(|price| !check(MOST_QUANTITY, price)));
    assert_eq!(energy_cents(MOST_QUANTITY, 1), 115_000);
    assert_eq!(energy_cents(MOST_QUANTITY, 9_990_000), 1_148_850_000_000);
    assert_eq!(energy_cents(MOST_QUANTITY, MOST_PRICE), 1_150_000_000_000);
}

/// How far so many cents are from quantity × price × 115 / 100,000, in 100,000ths of a cent.
fn distance(quantity: u32, price: u32, cents: u128) -> u128 {
    (cents * 100_000).abs_diff(u128::from(quantity) * u128::from(price) * 115)
}

/// 02's words: no other cents are nearer, and where others are as near, these are even. True if
/// others are as near.
fn check(quantity: u32, price: u32) -> bool {
    let cents = energy_cents(quantity, price);
    let from = |cents| distance(quantity, price, cents);
    let neighbours = [cents.checked_sub(1), Some(cents + 1)].into_iter().flatten();
    let nearest = neighbours.map(from).min().expect("the one above");
    assert!(from(cents) <= nearest, "{quantity} × {price}");
    let others_as_near = from(cents) == nearest;
    let odd = cents % 2 == 1;
    assert!(!(others_as_near && odd), "{quantity} × {price}");
    others_as_near
}

/// All products up to a million, and those about each multiple of 10,000 up to the largest quantity
/// at a price of 1. Each odd multiple is a half, and nothing else is.
#[test]
fn the_words_hold_about_every_half() {
    let halves = (0..=1_000_000).filter(|&product| check(product, 1)).count();
    assert_eq!(halves, 50);
    for multiple in 1..MOST_QUANTITY / 10_000 {
        for product in multiple * 10_000 - 3..=multiple * 10_000 + 3 {
            let half = product % 20_000 == 10_000;
            assert_eq!(check(product, 1), half, "{product}");
        }
    }
}

/// A price about each odd multiple of 10,000, with quantities that have no factor with it.
#[test]
fn the_words_hold_about_large_halves() {
    for quantity in [99_999_999, 99_980_001, 50_000_001, 60_001, 7, 3] {
        for odd in (1..1_000).step_by(2) {
            for price in odd * 10_000 - 3..=odd * 10_000 + 3 {
                assert_eq!(check(quantity, price), price == odd * 10_000, "{quantity} × {price}");
            }
        }
    }
}

/// Side 0 has two halves of 34 cents and one of 12. Side 1 has the products of the first two as one,
/// which is 69 cents, and amounts of 10 and 1.
#[test]
fn a_month_of_halves() {
    let mut book = Book::alone(3);
    let mut words = [9; 3];
    let mut answer = |entry: Entry| {
        let answer = book.apply(&entry, &mut words).number;
        (answer, words, book.held())
    };
    for entry in [
        Entry::open(1),
        Entry::energy(1, 0, 0, 100, 300),
        Entry::energy(1, 0, 0, 625, 48),
        Entry::energy(1, 1, 0, 100, 100),
        Entry::energy(1, 2, 1, 600, 100),
        Entry::amount(1, 2, 1, 1, 10),
    ] {
        assert_eq!(answer(entry), (0, [0; 3], 0));
    }
    assert_eq!(answer(Entry::notice(1)).0, 10);
    assert_eq!(answer(Entry::amount(1, 2, 1, 1, 1)).0, 0);
    assert_eq!(answer(Entry::notice(1)).0, 0);
    assert_eq!(answer(Entry::receipt(1, 0, 69)).0, 13);
    assert_eq!(answer(Entry::receipt(1, 0, 68)), (0, [0; 3], 68));
    assert_eq!(answer(Entry::receipt(1, 1, 13)).0, 13);
    assert_eq!(answer(Entry::receipt(1, 1, 12)), (0, [0; 3], 80));
    assert_eq!(answer(Entry::settle(1)), (0, [0, 0, 80], 0));
}

/// The answer to an energy entry on a side that has so many cents of room below its bound.
fn with_room(side: u8, room: u64, quantity: u32, price: u32) -> u8 {
    let mut book = Book::alone(2);
    let filled = MOST_TOTAL as u64 - room;
    for entry in [Entry::open(1), Entry::amount(1, 0, side, 5 * side, filled)] {
        assert_eq!(book.apply(&entry, &mut [9; 2]).number, 0);
    }
    book.apply(&Entry::energy(1, 1, side, quantity, price), &mut [9; 2]).number
}

#[test]
fn the_bound_is_on_the_cents_so_rounded() {
    for side in [0, 1] {
        assert_eq!([33, 34, 35].map(|room| with_room(side, room, 100, 300)), [11, 0, 0]);
        assert_eq!([10, 11, 12].map(|room| with_room(side, room, 100, 100)), [11, 11, 0]);
        let largest = |room| with_room(side, room, 99_999_999, 9_970_000);
        assert_eq!([1_146_549_988_533, 1_146_549_988_534].map(largest), [11, 0]);
        let largest = |room| with_room(side, room, 99_999_999, 9_990_000);
        assert_eq!([1_148_849_988_511, 1_148_849_988_512].map(largest), [11, 0]);
    }
}
