//! Examples of 02, c, reckoned by hand.

use crate::rules::book::Book;
use crate::rules::codec::Entry;
use crate::rules::making::Making;
use crate::rules::month_a;
use crate::rules::purse::{Payer, MOST_PURSE};

#[test]
fn the_smaller_of_purse_and_unpaid_is_drawn() {
    let payer = |purse, received, barred| Payer { purse, payable: 600, received, barred };
    let drawn = |purse, received| payer(purse, received, false).drawn();
    assert_eq!([0, 1, 599, 600, 601].map(|purse| drawn(purse, 0)), [0, 1, 599, 600, 600]);
    assert_eq!([0, 1, 299, 300, 301].map(|purse| drawn(purse, 300)), [0, 1, 299, 300, 300]);
    assert_eq!(drawn(MOST_PURSE, 600), 0);
    assert_eq!(payer(MOST_PURSE, 0, true).drawn(), 0);
}

/// Month A where payers 0 and 2 are related: all of G is retained, and 600 and 400 are payable. The
/// reserve of a group and the purses change neither. 400 and 200 are drawn: 400 in arrears leave
/// 600, 500 after tier 1: 388 8/9 of 700 and 111 1/9 of 200, which come to 389 and 111. Paid are 489
/// and 200 − 89.
#[test]
fn related_payers_draw_up_to_what_is_payable_in_groups() {
    let mut making = Making::alone(3);
    making.groups[..3].copy_from_slice(&[2, 0, 2]);
    making.reserves[2] = 1_000;
    let mut book = Book::make(&making).0;
    let mut words = [9; 3];
    let mut answer = |entry: Entry| {
        let answer = book.apply(&entry, &mut words).number;
        (answer, words, book.held())
    };
    assert_eq!(answer(Entry::purse(2, 500)), (0, [0; 3], 500));
    for entry in month_a::to_notice(7) {
        assert_eq!(answer(entry), (0, [0; 3], 500));
    }
    assert_eq!(answer(Entry::purse(0, 200)), (0, [0; 3], 700));
    assert_eq!(answer(Entry::settle(7)), (0, [0, 489, 111], 100));
    assert_eq!(answer(Entry::receipt(7, 0, 401)).0, 13);
    assert_eq!(answer(Entry::receipt(7, 0, 400)), (0, [0, 311, 89], 100));
}
