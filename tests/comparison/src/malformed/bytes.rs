//! Feeds with every value in every byte of an entry, and feeds cut after every byte.

use reckoning::rules::codec::{Entry, MOST_CENTS};
use reckoning::rules::month_a;

/// With the first there are participants that the book does not have, with the second none.
pub const EVERY_N: [u8; 2] = [3, 64];
/// The bytes that the listing reads at once, and how far about them feeds are cut.
const BLOCK: usize = 1 << 16;
const ABOUT: usize = 40;

/// A book with period 2 settled with arrears of payer 0, 3 after its notice and 4 before it. Both
/// payers have money in their purse, and that of participant 1 is 100 cents below its bound.
pub fn scene() -> Vec<Entry> {
    let mut entries = month_a::to_settle(2);
    entries.extend(month_a::to_notice(3));
    entries.push(Entry::open(4));
    entries.push(Entry::amount(4, 0, 0, 0, 100));
    entries.push(Entry::amount(4, 1, 1, 5, 100));
    entries.push(Entry::purse(0, 600));
    entries.push(Entry::purse(2, 34));
    entries.push(Entry::purse(1, MOST_CENTS - 100));
    entries
}

/// Entries of every kind and side. After the scene each is accepted, alone and in this order: both
/// washups add 41,400 on side 0, up where it is stated and down where side 1 is.
pub fn acts() -> Vec<Entry> {
    vec![
        Entry::open(5),
        Entry::energy(4, 0, 0, 5_000, 9_000),
        Entry::energy(4, 1, 1, 5_000, 9_000),
        Entry::amount(4, 2, 0, 0, 70_000),
        Entry::amount(4, 1, 1, 3, 70_000 + 2 * 41_400),
        Entry::washup(4, 3, 0, 0, 1_000, 5_000, 9_000),
        Entry::washup(4, 0, 1, 1, 5_000, 1_000, 9_000),
        Entry::notice(4),
        Entry::receipt(3, 2, 300),
        Entry::receipt(2, 0, 100),
        Entry::purse(1, 40),
        Entry::settle(3),
    ]
}

fn bytes(entries: &[Entry]) -> Vec<u8> {
    entries.iter().flat_map(Entry::bytes).collect()
}

/// A feed of n and the scene.
fn start(n: u8) -> Vec<u8> {
    [&[n], &bytes(&scene())[..]].concat()
}

/// Each byte of every kind, as the first entry and where the entry would be accepted, before one that
/// opens a period: the feed, and the byte's place in it.
pub fn every_place() -> Vec<(Vec<u8>, usize)> {
    let mut places = Vec::new();
    for n in EVERY_N {
        for entry in acts() {
            for before in [vec![n], start(n)] {
                let feed = [&before[..], &bytes(&[entry, Entry::open(9)])].concat();
                let of_entry = before.len()..before.len() + entry.bytes().len();
                places.extend(of_entry.map(|place| (feed.clone(), place)));
            }
        }
    }
    places
}

/// A feed of all kinds cut after each of its bytes, and one that is longer than a block
/// cut after each byte about the block's end.
pub fn every_cut() -> Vec<Vec<u8>> {
    let mut feeds = Vec::new();
    for n in EVERY_N {
        let whole = [start(n), bytes(&acts())].concat();
        feeds.extend((0..=whole.len()).map(|length| whole[..length].to_vec()));
        let mut long = start(n);
        while long.len() < BLOCK + ABOUT {
            long.extend(bytes(&[
                Entry::energy(4, 0, 0, 5_000, 9_000),
                Entry::receipt(3, 2, 1),
                Entry::purse(0, 1),
                Entry::washup(4, 3, 0, 0, 1_000, 5_000, 9_000),
            ]));
        }
        let lengths = BLOCK - ABOUT..=BLOCK + ABOUT;
        feeds.extend(lengths.map(|length| long[..length].to_vec()));
    }
    feeds
}
