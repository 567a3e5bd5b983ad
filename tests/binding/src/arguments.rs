//! The rows of a month as the slices that the exports take, and the slices that they write.

use comparison::generate::months::Month;
use reckoning::rules::month::TIERS;

pub const PLACES: usize = 64;
pub const TIER_PLACES: usize = TIERS * PLACES;

/// Each cell that is lent before a call.
pub const BEFORE: u64 = 0xBEF0_0E00_0000_0001;
/// Cells past the 64 that are written, or that count.
const PAST: usize = 2;

/// What stands past n in the slices passed: nothing may be read there.
#[derive(Clone, Copy)]
pub enum Rest {
    Zero,
    Most,
}

/// What the exports take of a month.
#[derive(Clone)]
pub struct Arguments {
    pub by: Vec<u64>,
    /// Participant i's tier t, from 0 on, at 5 i + t.
    pub to: Vec<u64>,
    pub groups: Vec<u64>,
    pub reserves: Vec<u64>,
    pub received: Vec<u64>,
    pub claims: Vec<u64>,
    pub paid: Vec<u64>,
    /// The money of a late receipt.
    pub money: u64,
    pub n: usize,
    /// The slices to write; an export takes as many as it needs.
    pub written: [Vec<u64>; 3],
}

pub fn word(cents: u128) -> u64 {
    cents.try_into().expect("64 bits")
}

fn slice(row: impl Iterator<Item = u128>, length: usize, rest: Rest) -> Vec<u64> {
    let mut cells: Vec<u64> = row.map(word).collect();
    cells.resize(length, if let Rest::Most = rest { u64::MAX } else { 0 });
    cells
}

/// A row in 64 cells.
pub fn row(cents: &[u128], rest: Rest) -> Vec<u64> {
    slice(cents.iter().copied(), PLACES, rest)
}

impl Arguments {
    /// Those of a month and its first late receipt. Where the rest is the most, group numbers and
    /// reserves have cells past the 64 that count.
    pub fn of(month: &Month, rest: Rest) -> Arguments {
        let (making, settlement) = (&month.making, &month.settlement);
        let length = if let Rest::Most = rest { PLACES + PAST } else { PLACES };
        Arguments {
            by: row(&month.sums.by, rest),
            to: slice(month.sums.to.iter().flatten().copied(), TIER_PLACES, rest),
            groups: slice(making.numbers().iter().map(|&group| group.into()), length, rest),
            reserves: slice(making.reserves.iter().map(|&cents| cents.into()), length, rest),
            received: row(&month.received, rest),
            claims: row(&settlement.step_one.claim, rest),
            paid: row(&settlement.paid, rest),
            money: month.late.first().map_or(0, |late| word(late.money)),
            n: month.n,
            written: [(); 3].map(|()| vec![BEFORE; PLACES + PAST]),
        }
    }

    /// The same but for one change.
    pub fn but(&self, change: impl Fn(&mut Arguments)) -> Arguments {
        let mut with = self.clone();
        change(&mut with);
        with
    }

    /// Lends the slices to write anew.
    pub fn lend(&mut self) {
        self.written.iter_mut().for_each(|cells| cells.fill(BEFORE));
    }
}

/// How the cells differ from the reckoned row: it stands below n, then 0 up to
/// 64, and past that what was there.
pub fn difference(reckoned: &[u128], cells: &[u64]) -> Option<String> {
    let mut wanted = row(reckoned, Rest::Zero);
    wanted.resize(cells.len(), BEFORE);
    let at = (0..cells.len()).find(|&at| wanted[at] != cells[at])?;
    Some(format!("cell {at}: reckoned {}, found {}", wanted[at], cells[at]))
}
