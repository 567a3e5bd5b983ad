//! Reading and writing undo each other, over random entries, and over such with a byte changed.

use crate::generate::random::Random;
use reckoning::rules::codec::*;

fn any_right_entry(random: &mut Random) -> Entry {
    let kind = random.between(OPEN.into(), LAST_KIND.into()) as u8;
    let mut entry = Entry { kind, ..Entry::default() };
    for &field in layout(kind) {
        let value = match field {
            Field::Period | Field::EarlierPeriod => random.below(1 << 32),
            Field::Participant => random.below(64),
            Field::Side => random.below(2),
            Field::Tier => u64::from(entry.side) * random.between(1, 5),
            Field::Quantity | Field::OldQuantity => random.between(0, MOST_QUANTITY.into()),
            Field::Price => random.between(0, MOST_PRICE.into()),
            Field::Cents => random.between(1, MOST_CENTS),
        };
        entry.set(field, value);
    }
    entry
}

#[test]
fn reading_undoes_writing() {
    let mut random = Random::new(1);
    for _ in 0..5_000 {
        let entry = any_right_entry(&mut random);
        let mut lent = [238; 27];
        let count = write(&entry, &mut lent).unwrap();
        assert_eq!(count, 1 + body_length(entry.kind));
        assert!(lent[count..].iter().all(|&byte| byte == 238));
        assert_eq!(read(&lent, 0), Ok((entry, count as u64)));
        assert_eq!(read(&lent[..count - 1], 0), Err(1));
    }
}

/// Over entries of which one byte is changed to any, where they can still be read.
#[test]
fn writing_undoes_reading() {
    let mut random = Random::new(2);
    let mut accepted = [0; LAST_KIND as usize + 1];
    for _ in 0..200_000 {
        let mut bytes = any_right_entry(&mut random).bytes();
        let place = random.below(bytes.len() as u64) as usize;
        bytes[place] = random.any() as u8;
        if let Ok((entry, next)) = read(&bytes, 0) {
            let mut lent = [0; LONGEST_ENTRY];
            assert_eq!(write(&entry, &mut lent), Ok(next as usize));
            assert_eq!(lent[..next as usize], bytes[..next as usize]);
            accepted[usize::from(entry.kind)] += 1;
        }
    }
    assert!(accepted[1..].iter().all(|&count| count > 2_000), "{accepted:?}");
}
