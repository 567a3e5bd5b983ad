//! Proposes washups (02, e), aimed at the bounds of both sides and at the earlier periods that stand
//! and just do not.

use crate::generate::aim::Aim;
use crate::generate::quantities::{self, Revision};
use reckoning::rules::codec::Entry;
use reckoning::rules::washup;

/// The earlier period is at most so many below the period.
const MOST_BELOW: u32 = washup::MOST_BELOW as u32;

impl Aim {
    /// A washup for a period before its notice: any, one about the bound of a side, or the one
    /// proposed before from new to old.
    pub fn washup(&mut self, number: u32) -> Entry {
        let before = self.last_washup.filter(|last| last.period == number);
        if let Some(last) = before.filter(|_| self.random.chance(1, 5)) {
            return self.proposed(washup::turned(&last));
        }
        let side = self.random.below(2) as u8;
        let revision = self.revision_for(number, side);
        let earlier = self.earlier_period(number);
        let entry = self.washup_by(number, earlier, side, revision);
        self.proposed(entry)
    }

    /// A washup that is meant to be refused, mostly with 16.
    pub fn wrong_washup(&mut self) -> Entry {
        let number = self.period_for_washup();
        let side = self.random.below(2) as u8;
        let stands = self.random.chance(1, 4);
        let revision = self.revision_for(number, side);
        let earlier = match stands {
            true => self.earlier_period(number),
            false => self.wrong_earlier_period(number),
        };
        self.washup_by(number, earlier, side, revision)
    }

    /// An amount that brings a side to its bound but for little room, where there is more.
    pub fn filling(&mut self, number: u32, side: u8) -> Option<Entry> {
        let some = self.random.between(2, 5_000);
        let left = self.random.pick(&[0, 0, 1, 12, 34, some]);
        let room = self.room_on(number, side);
        let participant = self.any_participant();
        let amount = |cents| Entry::amount(number, participant, side, 5 * side, cents);
        (room > left).then(|| amount(room - left))
    }

    /// Keeps a washup as the last one proposed.
    fn proposed(&mut self, entry: Entry) -> Entry {
        self.last_washup = Some(entry);
        entry
    }

    /// One about the bound of the side to which it goes, in half of the cases, or any.
    fn revision_for(&mut self, number: u32, side: u8) -> Revision {
        let about_bound = self.random.chance(1, 2).then(|| self.about_bound(number, side));
        let any = || quantities::any(&mut self.random, self.manner.scale);
        about_bound.flatten().unwrap_or_else(any)
    }

    fn washup_by(&mut self, number: u32, earlier: u32, side: u8, revision: Revision) -> Entry {
        let Revision { old, new, price } = revision;
        Entry::washup(number, earlier, self.any_participant(), side, old, new, price)
    }

    /// A period before its notice, in half of the cases one with a nearly full side; or any where
    /// there is none.
    fn period_for_washup(&mut self) -> u32 {
        let room = |number| self.room_on(number, 0).min(self.room_on(number, 1));
        let mut nearly_full = self.book.before_notice();
        nearly_full.retain(|&number| quantities::in_reach(room(number)));
        if !nearly_full.is_empty() && self.random.chance(1, 2) {
            return self.random.pick(&nearly_full);
        }
        self.any_before_notice().unwrap_or_else(|| self.any_period())
    }

    /// Up or down by just the room of the side to which it goes, a cent less or more; nothing where
    /// that is out of reach.
    fn about_bound(&mut self, number: u32, side: u8) -> Option<Revision> {
        let up = self.random.chance(1, 2);
        let goes_to = if up { side } else { 1 - side };
        let room = self.room_on(number, goes_to);
        if !quantities::in_reach(room) {
            return None;
        }
        let cents = self.random.near(room);
        let found = quantities::up_by(&mut self.random, cents)?;
        Some(if up { found } else { found.turned() })
    }

    /// 1 to 24 below a period: the nearest, the farthest, one in the book, or any.
    pub fn earlier_period(&mut self, number: u32) -> u32 {
        let (farthest, nearest) = (number.saturating_sub(MOST_BELOW), number.saturating_sub(1));
        let any = self.random.between(farthest.into(), nearest.into()) as u32;
        let in_book: Vec<u32> =
            self.book.periods.range(farthest..number).map(|(&n, _)| n).collect();
        let opened = if in_book.is_empty() { any } else { self.random.pick(&in_book) };
        self.random.pick(&[any, opened, farthest, nearest])
    }

    /// The period itself, above it, 25 below, far below, or so far above that 32 bits would wrap.
    fn wrong_earlier_period(&mut self, number: u32) -> u32 {
        let step = self.random.between(1, MOST_BELOW.into()) as u32;
        if number < MOST_BELOW && self.random.chance(1, 3) {
            return number.wrapping_sub(step.max(number + 1));
        }
        let just_below = number.checked_sub(MOST_BELOW + 1).unwrap_or(number);
        let far = self.random.below(u64::from(just_below) + 1) as u32;
        let far = if number > MOST_BELOW { far } else { number };
        let above = [number.saturating_add(1), number.saturating_add(step)];
        self.random.pick(&[number, just_below, just_below, above[0], above[1], u32::MAX, far])
    }
}
