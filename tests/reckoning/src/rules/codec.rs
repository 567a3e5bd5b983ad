//! Entries: their layouts, the values of their fields, reading and writing.

use crate::rules::refusals::*;

pub const OPEN: u8 = 1;
pub const ENERGY: u8 = 2;
pub const AMOUNT: u8 = 3;
pub const NOTICE: u8 = 4;
pub const RECEIPT: u8 = 5;
pub const SETTLE: u8 = 6;
/// Money for a participant's purse (02, c).
pub const PURSE: u8 = 7;
/// A revised quantity of an earlier period (02, e).
pub const WASHUP: u8 = 8;
/// Kinds run from OPEN to this one.
pub const LAST_KIND: u8 = WASHUP;

pub const LAST_PARTICIPANT: u8 = 63;
pub const MOST_QUANTITY: u32 = 100_000_000;
pub const MOST_PRICE: u32 = 10_000_000;
pub const MOST_CENTS: u64 = 10_000_000_000_000;
/// The kind's byte and the longest body.
pub const LONGEST_ENTRY: usize = 23;

#[derive(Clone, Copy, Debug, PartialEq, Eq)]
pub enum Field {
    Period,
    Participant,
    Side,
    Tier,
    Quantity,
    Price,
    Cents,
    EarlierPeriod,
    OldQuantity,
}

use Field::*;

/// An entry of a kind that exists. Fields that the kind lacks are passed over.
#[derive(Clone, Copy, Debug, Default, PartialEq, Eq)]
pub struct Entry {
    pub kind: u8,
    pub period: u32,
    pub participant: u8,
    pub side: u8,
    pub tier: u8,
    /// A washup's is the new one.
    pub quantity: u32,
    pub price: u32,
    pub cents: u64,
    pub earlier_period: u32,
    pub old_quantity: u32,
}

pub fn kind_exists(kind: u8) -> bool {
    (OPEN..=LAST_KIND).contains(&kind)
}

/// The fields of a kind that exists, in the layout's order.
pub fn layout(kind: u8) -> &'static [Field] {
    match kind {
        OPEN | NOTICE | SETTLE => &[Period],
        ENERGY => &[Period, Participant, Side, Quantity, Price],
        AMOUNT => &[Period, Participant, Side, Tier, Cents],
        RECEIPT => &[Period, Participant, Cents],
        PURSE => &[Participant, Cents],
        WASHUP => &[Period, EarlierPeriod, Participant, Side, OldQuantity, Quantity, Price],
        _ => panic!("no such kind: {kind}"),
    }
}

pub fn width(field: Field) -> usize {
    match field {
        Participant | Side | Tier => 1,
        Period | EarlierPeriod | Quantity | OldQuantity | Price => 4,
        Cents => 8,
    }
}

pub fn body_length(kind: u8) -> usize {
    layout(kind).iter().map(|&field| width(field)).sum()
}

impl Entry {
    pub fn open(period: u32) -> Entry {
        Entry { kind: OPEN, period, ..Entry::default() }
    }

    pub fn energy(period: u32, participant: u8, side: u8, quantity: u32, price: u32) -> Entry {
        Entry { kind: ENERGY, period, participant, side, quantity, price, ..Entry::default() }
    }

    pub fn amount(period: u32, participant: u8, side: u8, tier: u8, cents: u64) -> Entry {
        Entry { kind: AMOUNT, period, participant, side, tier, cents, ..Entry::default() }
    }

    pub fn notice(period: u32) -> Entry {
        Entry { kind: NOTICE, period, ..Entry::default() }
    }

    pub fn receipt(period: u32, participant: u8, cents: u64) -> Entry {
        Entry { kind: RECEIPT, period, participant, cents, ..Entry::default() }
    }

    pub fn settle(period: u32) -> Entry {
        Entry { kind: SETTLE, period, ..Entry::default() }
    }

    pub fn purse(participant: u8, cents: u64) -> Entry {
        Entry { kind: PURSE, participant, cents, ..Entry::default() }
    }

    pub fn washup(
        period: u32,
        earlier_period: u32,
        participant: u8,
        side: u8,
        old_quantity: u32,
        quantity: u32,
        price: u32,
    ) -> Entry {
        let energy = Entry::energy(period, participant, side, quantity, price);
        Entry { kind: WASHUP, earlier_period, old_quantity, ..energy }
    }

    pub fn value(&self, field: Field) -> u64 {
        match field {
            Period => self.period.into(),
            Participant => self.participant.into(),
            Side => self.side.into(),
            Tier => self.tier.into(),
            Quantity => self.quantity.into(),
            Price => self.price.into(),
            Cents => self.cents,
            EarlierPeriod => self.earlier_period.into(),
            OldQuantity => self.old_quantity.into(),
        }
    }

    /// Sets a field to a value that its width can carry.
    pub fn set(&mut self, field: Field, value: u64) {
        match field {
            Period => self.period = value as u32,
            Participant => self.participant = value as u8,
            Side => self.side = value as u8,
            Tier => self.tier = value as u8,
            Quantity => self.quantity = value as u32,
            Price => self.price = value as u32,
            Cents => self.cents = value,
            EarlierPeriod => self.earlier_period = value as u32,
            OldQuantity => self.old_quantity = value as u32,
        }
    }

    pub fn has(&self, field: Field) -> bool {
        layout(self.kind).contains(&field)
    }

    fn field_in_values(&self, field: Field) -> bool {
        match field {
            Period | EarlierPeriod => true,
            Participant => self.participant <= LAST_PARTICIPANT,
            Side => self.side <= 1,
            Tier => match self.side {
                0 => self.tier == 0,
                _ => (1..=5).contains(&self.tier),
            },
            Quantity => self.quantity <= MOST_QUANTITY,
            OldQuantity => self.old_quantity <= MOST_QUANTITY,
            Price => self.price <= MOST_PRICE,
            Cents => (1..=MOST_CENTS).contains(&self.cents),
        }
    }

    /// Whether every field of the kind is inside its values (else 3).
    pub fn in_values(&self) -> bool {
        layout(self.kind).iter().all(|&field| self.field_in_values(field))
    }

    /// The entry's bytes, whatever its values.
    pub fn bytes(&self) -> Vec<u8> {
        let mut bytes = vec![self.kind];
        for &field in layout(self.kind) {
            let value = self.value(field).to_le_bytes();
            bytes.extend_from_slice(&value[..width(field)]);
        }
        bytes
    }
}

/// An unsigned number, least significant byte first.
pub fn number(bytes: &[u8]) -> u64 {
    bytes.iter().rev().fold(0, |value, &byte| (value << 8) | u64::from(byte))
}

/// Reads the entry at a place: the entry and the place of the next one.
pub fn read(bytes: &[u8], place: u64) -> Result<(Entry, u64), u8> {
    let length = bytes.len() as u64;
    if place >= length {
        return Err(TOO_FEW_BYTES);
    }
    let rest = &bytes[place as usize..];
    let kind = rest[0];
    if !kind_exists(kind) {
        return Err(KIND_UNKNOWN);
    }
    let needed = 1 + body_length(kind);
    if rest.len() < needed {
        return Err(TOO_FEW_BYTES);
    }
    let mut entry = Entry { kind, ..Entry::default() };
    let mut at = 1;
    for &field in layout(kind) {
        entry.set(field, number(&rest[at..at + width(field)]));
        at += width(field);
    }
    if !entry.in_values() {
        return Err(FIELD_OUTSIDE);
    }
    Ok((entry, place + needed as u64))
}

/// Fills the lent bytes from their first on; answers how many it wrote.
pub fn write(entry: &Entry, lent: &mut [u8]) -> Result<usize, u8> {
    if !entry.in_values() {
        return Err(FIELD_OUTSIDE);
    }
    let bytes = entry.bytes();
    if lent.len() < bytes.len() {
        return Err(TOO_LITTLE_LENT);
    }
    lent[..bytes.len()].copy_from_slice(&bytes);
    Ok(bytes.len())
}
