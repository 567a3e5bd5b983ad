//! Reading and writing: each layout, each bound of a field and each refusal.

use crate::rules::codec::*;

#[test]
fn body_lengths() {
    let lengths: Vec<usize> = (OPEN..=LAST_KIND).map(body_length).collect();
    assert_eq!(lengths, [4, 14, 15, 4, 13, 4, 9, 22]);
}

#[test]
fn reading_refuses() {
    assert_eq!(read(&[], 0), Err(1));
    assert_eq!(read(&[1, 7, 0, 0, 0], 5), Err(1));
    assert_eq!(read(&[1, 7, 0, 0, 0], u64::MAX), Err(1));
    assert_eq!(read(&[1, 7, 0, 0], 0), Err(1));
    assert_eq!(read(&[0], 0), Err(2));
    assert_eq!(read(&[7, 2, 44, 1, 0, 0, 0, 0, 0], 0), Err(1));
    assert_eq!(read(&[7], 0), Err(1));
    assert_eq!(read(&[8, 0, 0, 0, 0], 0), Err(1));
    assert_eq!(read(&[8; 22], 0), Err(1));
    assert_eq!(read(&[9; 23], 0), Err(2));
    assert_eq!(read(&[9, 1, 7, 0, 0, 0], 1), Ok((Entry::open(7), 6)));
}

fn washup(old: u32, new: u32, price: u32) -> Entry {
    Entry::washup(2, 1, 0, 0, old, new, price)
}

/// Each bound of each field: the last value that stands, and the next, which is 3.
#[test]
fn fields_at_their_bounds() {
    let rows = [
        (Entry::energy(1, 63, 1, 1, 1), Entry::energy(1, 64, 1, 1, 1)),
        (Entry::energy(1, 0, 1, 1, 1), Entry::energy(1, 0, 2, 1, 1)),
        (Entry::energy(1, 0, 0, 100_000_000, 1), Entry::energy(1, 0, 0, 100_000_001, 1)),
        (Entry::energy(1, 0, 0, 1, 10_000_000), Entry::energy(1, 0, 0, 1, 10_000_001)),
        (Entry::amount(1, 63, 0, 0, 1), Entry::amount(1, 64, 0, 0, 1)),
        (Entry::amount(1, 0, 1, 1, 1), Entry::amount(1, 0, 2, 1, 1)),
        (Entry::amount(1, 0, 0, 0, 1), Entry::amount(1, 0, 0, 1, 1)),
        (Entry::amount(1, 0, 1, 1, 1), Entry::amount(1, 0, 1, 0, 1)),
        (Entry::amount(1, 0, 1, 5, 1), Entry::amount(1, 0, 1, 6, 1)),
        (Entry::amount(1, 0, 0, 0, 1), Entry::amount(1, 0, 0, 0, 0)),
        (Entry::amount(1, 0, 0, 0, MOST_CENTS), Entry::amount(1, 0, 0, 0, MOST_CENTS + 1)),
        (Entry::receipt(1, 63, 1), Entry::receipt(1, 64, 1)),
        (Entry::receipt(1, 0, 1), Entry::receipt(1, 0, 0)),
        (Entry::receipt(1, 0, MOST_CENTS), Entry::receipt(1, 0, MOST_CENTS + 1)),
        (Entry::purse(63, 1), Entry::purse(64, 1)),
        (Entry::purse(0, 1), Entry::purse(0, 0)),
        (Entry::purse(0, MOST_CENTS), Entry::purse(0, MOST_CENTS + 1)),
        (Entry::washup(2, 1, 63, 1, 1, 1, 1), Entry::washup(2, 1, 64, 1, 1, 1, 1)),
        (Entry::washup(2, 1, 0, 1, 1, 1, 1), Entry::washup(2, 1, 0, 2, 1, 1, 1)),
        (washup(100_000_000, 1, 1), washup(100_000_001, 1, 1)),
        (washup(1, 100_000_000, 1), washup(1, 100_000_001, 1)),
        (washup(1, 1, 10_000_000), washup(1, 1, 10_000_001)),
    ];
    for (stands, refused) in rows {
        assert!(read(&stands.bytes(), 0).is_ok(), "{stands:?}");
        assert_eq!(read(&refused.bytes(), 0), Err(3), "{refused:?}");
        assert_eq!(write(&refused, &mut [0; LONGEST_ENTRY]), Err(3), "{refused:?}");
    }
}

#[test]
fn writing_refuses_and_changes_nothing() {
    let mut lent = [238; 15];
    assert_eq!(write(&Entry::amount(1, 0, 1, 5, 1), &mut lent), Err(5));
    assert_eq!(write(&Entry::amount(1, 0, 1, 6, 1), &mut lent), Err(3));
    assert_eq!(lent, [238; 15]);
}

/// Kind, participant and cents; the period and the other fields are passed over.
#[test]
fn a_purse_entry_has_ten_bytes() {
    let entry = Entry::purse(2, 300);
    let bytes = [7, 2, 44, 1, 0, 0, 0, 0, 0, 0];
    let with_others = Entry { period: 9, side: 2, tier: 6, quantity: 5, price: 4, ..entry };
    let with_others = Entry { earlier_period: 3, old_quantity: 2, ..with_others };
    for entry in [entry, with_others] {
        let mut lent = [238; 12];
        assert_eq!(write(&entry, &mut lent), Ok(10));
        assert_eq!(lent[..10], bytes);
        assert_eq!(lent[10..], [238; 2]);
        assert_eq!(write(&entry, &mut [238; 9]), Err(5));
    }
    assert_eq!(read(&bytes, 0), Ok((entry, 10)));
}

/// Kind, both periods, participant, side, old and new kWh and price; tier and cents are passed over.
#[test]
fn a_washup_has_23_bytes() {
    let entry = Entry::washup(0x1234_5678, 0x9abc_def0, 2, 1, 300, 70_000, 513);
    let bytes = [
        8, 0x78, 0x56, 0x34, 0x12, 0xf0, 0xde, 0xbc, 0x9a, 2, 1, 44, 1, 0, 0, 112, 17, 1, 0, 1, 2,
        0, 0,
    ];
    for entry in [entry, Entry { tier: 6, cents: u64::MAX, ..entry }] {
        let mut lent = [238; 25];
        assert_eq!(write(&entry, &mut lent), Ok(23));
        assert_eq!(lent[..23], bytes);
        assert_eq!(lent[23..], [238; 2]);
        assert_eq!(write(&entry, &mut [238; 22]), Err(5));
    }
    assert_eq!(read(&bytes, 0), Ok((entry, 23)));
    assert_eq!(read(&bytes[..22], 0), Err(1));
}

/// Any two periods can be read and written, whichever is above the other.
#[test]
fn a_washup_is_read_with_any_periods() {
    for (period, earlier) in [(0, 0), (0, u32::MAX), (u32::MAX, 0), (1, 26), (26, 1)] {
        let entry = Entry::washup(period, earlier, 0, 0, 0, 0, 0);
        assert_eq!(read(&entry.bytes(), 0), Ok((entry, 23)));
        assert_eq!(write(&entry, &mut [0; 23]), Ok(23));
    }
}
