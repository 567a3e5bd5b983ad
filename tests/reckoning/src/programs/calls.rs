//! The bytes of calls to the trial program.

use crate::programs::trial::CALL_FIELDS;
use crate::rules::codec::{width, Entry};
use crate::rules::making::Making;

pub fn book(n: u64) -> Vec<u8> {
    let mut bytes = vec![b'B'];
    bytes.extend(n.to_le_bytes());
    bytes
}

pub fn book_in_groups(making: &Making) -> Vec<u8> {
    let mut bytes = vec![b'G'];
    bytes.extend(making.n.to_le_bytes());
    bytes.extend(making.groups);
    making.reserves.iter().for_each(|cents| bytes.extend(cents.to_le_bytes()));
    bytes
}

/// As `book_in_groups`, with the making's limits.
pub fn book_of_limits(making: &Making) -> Vec<u8> {
    let mut bytes = book_in_groups(making);
    bytes[0] = b'L';
    bytes.extend(making.limits.participants.to_le_bytes());
    bytes.extend(making.limits.periods.to_le_bytes());
    bytes
}

fn with_entry(call: u8, entry: &Entry, last: u8) -> Vec<u8> {
    let mut bytes = vec![call, entry.kind];
    for field in CALL_FIELDS {
        bytes.extend(&entry.value(field).to_le_bytes()[..width(field)]);
    }
    bytes.push(last);
    bytes
}

pub fn apply(entry: &Entry, words: u8) -> Vec<u8> {
    with_entry(b'A', entry, words)
}

pub fn write(entry: &Entry, room: u8) -> Vec<u8> {
    with_entry(b'W', entry, room)
}

pub fn read(place: u64, bytes: &[u8]) -> Vec<u8> {
    let length = u16::try_from(bytes.len()).expect("at most 65,535 bytes");
    let mut call = vec![b'R'];
    call.extend(place.to_le_bytes());
    call.extend(length.to_le_bytes());
    call.extend(bytes);
    call
}
