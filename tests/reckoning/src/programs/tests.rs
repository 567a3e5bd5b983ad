//! Listings that 01 names.

use crate::programs::listing::listing;
use crate::rules::codec::Entry;
use crate::rules::month_a;

#[test]
fn listing_of_month_a() {
    let text = "entry answer paid held\n1 0 0 0\n2 0 0 0\n3 0 0 0\n4 0 0 0\n5 0 0 0\n6 0 0 0\n7 0 0 0\n\
                8 0 0 300\n9 0 0 634\n10 0 634 0\npay 1 567\npay 2 67\n11 0 100 0\npay 1 78\npay 2 22\n\
                12 0 200 0\npay 1 155\npay 2 45\n";
    assert_eq!(String::from_utf8(listing(&month_a::feed())).unwrap(), text);
}

#[test]
fn listings_that_end_early() {
    let text = |feed: &[u8]| String::from_utf8(listing(feed)).unwrap();
    let header = "entry answer paid held\n";
    let open = Entry::open(7).bytes();
    assert_eq!(text(&[]), header);
    assert_eq!(text(&[3]), header);
    assert_eq!(text(&[3, 1]), format!("{header}1 1 0 0\n"));
    assert_eq!(text(&[3, 7, 1]), format!("{header}1 1 0 0\n"));
    assert_eq!(text(&[3, 8, 1]), format!("{header}1 1 0 0\n"));
    assert_eq!(text(&[3, 9, 1]), format!("{header}1 2 0 0\n"));
    assert_eq!(text(&[&[3], &open[..], &[0]].concat()), format!("{header}1 0 0 0\n2 2 0 0\n"));
    assert_eq!(text(&[&[65], &open[..], &open].concat()), format!("{header}1 4 0 0\n2 4 0 0\n"));
    let bad = Entry::receipt(7, 0, 0).bytes();
    assert_eq!(text(&[&[3], &bad[..], &open].concat()), format!("{header}1 3 0 0\n"));
    // The cents held stand in the line of bytes that cannot be read.
    let held = [&month_a::feed()[..], &[9]].concat();
    assert!(text(&held).ends_with("pay 2 45\n13 2 0 0\n"));
}
