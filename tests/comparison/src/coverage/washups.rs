//! Washups (02, e): their amounts, their earlier periods and the bounds of both sides.

use crate::coverage::sights::SIDES;
use crate::coverage::{Place, Request, Seen, Subject, Watch};
use reckoning::programs::observer::{Applied, Made};
use reckoning::rules::book::Book;
use reckoning::rules::codec::{Entry, WASHUP};
use reckoning::rules::month;
use reckoning::rules::refusals::{ACCEPTED, EARLIER_PERIOD_OUTSIDE, TOTAL_PASSES_BOUND};
use reckoning::rules::washup;
use std::cmp::Ordering;

pub static REQUEST: Request =
    Request { subjects: &[&WASHUPS], watch: Some(|| Box::<Washups>::default()) };

pub static WASHUPS: Subject =
    Subject { name: "washups by their stated side", rows: Sight::ROWS, columns: SIDES, needed };

/// The months of a soak do not come to the last period numbers.
fn needed(place: Place, row: usize, _: usize) -> bool {
    match place {
        Place::Trials | Place::Listings(_) => true,
        Place::Soak(_) => row != Sight::LastNumbers as usize,
        _ => false,
    }
}

sights! {
    pub enum Sight of WASHUPS {
        Up = "accepted, up: on the stated side",
        Down = "accepted, down: on the other side",
        SameQuantity = "accepted with equal quantities",
        SameCents = "accepted with others of equal cents",
        OtherIfRoundedOnce = "the difference of the quantities would be other cents",
        OldHalfDown = "the old amount was a half and went down",
        OldHalfUp = "the old amount was a half and went up",
        NewHalfDown = "the new amount was a half and went down",
        NewHalfUp = "the new amount was a half and went up",
        OneBelow = "the earlier period 1 below",
        TwentyFourBelow = "the earlier period 24 below",
        NumberZero = "the earlier period of number 0",
        InBook = "the earlier period in the book",
        NotInBook = "the earlier period not in the book",
        LastNumbers = "the period one of the last 24 of 32 bits",
        /// Otherwise alike, not of 0 cents, and as the next accepted washup.
        ThereAndBack = "new to old right after old to new",
        UpToBound = "up, to the bound of the side",
        DownToBound = "down, to the bound of the other side",
        UpPastBound = "up, refused with 11 for one cent",
        DownPastBound = "down, refused with 11 for one cent",
        UpOtherFull = "up, while the other side is full",
        DownStatedFull = "down, while the stated side is full",
        UpOtherHasRoom = "up, refused with 11 while the other side has room",
        DownStatedHasRoom = "down, refused with 11 while the stated side has room",
        NothingOnFull = "nothing added, while the stated side is full",
        LargerPasses = "accepted, though the larger amount would pass the bound",
        ThePeriodItself = "refused with 16: the period itself",
        Above = "refused with 16: 1 to 24 above",
        TwentyFiveBelow = "refused with 16: 25 below",
        Wrapping = "refused with 16, where 32 bits would wrap to 1 to 24 below",
        With11 = "refused with 16, where 11 holds too",
    }
}

/// How many were accepted and added cents.
pub fn added(seen: &Seen) -> u64 {
    seen.of(Sight::Up) + seen.of(Sight::Down)
}

/// A washup for a period in the book, whose sums it is not yet in.
struct Found {
    entry: Entry,
    /// The energy amounts of the old quantity and of the new one.
    old: u128,
    new: u128,
    /// What the stated side and the other one have room for.
    stated_room: u128,
    other_room: u128,
    /// Whether the earlier period is in the book.
    in_book: bool,
}

impl Found {
    fn in_book(book: &Book, entry: &Entry) -> Option<Found> {
        if entry.kind != WASHUP || !entry.in_values() {
            return None;
        }
        let period = book.periods.get(&entry.period)?;
        let (old, new) = washup::amounts(entry);
        let (stated_room, other_room) = (period.room(entry.side), period.room(1 - entry.side));
        let in_book = book.periods.contains_key(&entry.earlier_period);
        Some(Found { entry: *entry, old, new, stated_room, other_room, in_book })
    }

    fn way(&self) -> Ordering {
        self.new.cmp(&self.old)
    }

    fn cents(&self) -> u128 {
        self.new.abs_diff(self.old)
    }

    fn below(&self) -> i64 {
        washup::below(self.entry.period, self.entry.earlier_period)
    }

    /// The room of the side to which it goes, and of the other one.
    fn rooms(&self) -> (u128, u128) {
        match self.way() {
            Ordering::Less => (self.other_room, self.stated_room),
            _ => (self.stated_room, self.other_room),
        }
    }

    /// The sights of an accepted one.
    fn accepted(&self) -> Vec<(bool, Sight)> {
        let Entry { period, earlier_period, old_quantity, quantity, price, .. } = self.entry;
        let [up, down, same] =
            [Ordering::Greater, Ordering::Less, Ordering::Equal].map(|way| self.way() == way);
        let ((room, other), cents) = (self.rooms(), self.cents());
        let once = month::energy_cents(quantity.abs_diff(old_quantity), price);
        let [old_half, new_half] = [old_quantity, quantity].map(|kwh| month::is_half(kwh, price));
        let goes_up =
            |kwh: u32, cents: u128| cents * 100_000 > u128::from(kwh) * u128::from(price) * 115;
        let (old_up, new_up) = (goes_up(old_quantity, self.old), goes_up(quantity, self.new));
        vec![
            (up, Sight::Up),
            (down, Sight::Down),
            (same && old_quantity == quantity, Sight::SameQuantity),
            (same && old_quantity != quantity, Sight::SameCents),
            (once != cents, Sight::OtherIfRoundedOnce),
            (old_half && !old_up, Sight::OldHalfDown),
            (old_half && old_up, Sight::OldHalfUp),
            (new_half && !new_up, Sight::NewHalfDown),
            (new_half && new_up, Sight::NewHalfUp),
            (self.below() == 1, Sight::OneBelow),
            (self.below() == 24, Sight::TwentyFourBelow),
            (earlier_period == 0, Sight::NumberZero),
            (self.in_book, Sight::InBook),
            (!self.in_book, Sight::NotInBook),
            (period > u32::MAX - 24, Sight::LastNumbers),
            (up && cents == room, Sight::UpToBound),
            (down && cents == room, Sight::DownToBound),
            (up && other == 0, Sight::UpOtherFull),
            (down && other == 0, Sight::DownStatedFull),
            (same && self.stated_room == 0, Sight::NothingOnFull),
            (!same && self.old.max(self.new) > room, Sight::LargerPasses),
        ]
    }

    /// Where it is refused with 11.
    fn refused_with_11(&self) -> Vec<(bool, Sight)> {
        let (up, (room, other)) = (self.way() == Ordering::Greater, self.rooms());
        let (past, has_room) = (self.cents() == room + 1, self.cents() <= other);
        vec![
            (up && past, Sight::UpPastBound),
            (!up && past, Sight::DownPastBound),
            (up && has_room, Sight::UpOtherHasRoom),
            (!up && has_room, Sight::DownStatedHasRoom),
        ]
    }

    /// Where it is refused with 16.
    fn refused_with_16(&self) -> Vec<(bool, Sight)> {
        let wrapped = self.entry.period.wrapping_sub(self.entry.earlier_period);
        vec![
            (self.below() == 0, Sight::ThePeriodItself),
            ((-24..=-1).contains(&self.below()), Sight::Above),
            (self.below() == 25, Sight::TwentyFiveBelow),
            ((1..=24).contains(&wrapped), Sight::Wrapping),
            (self.cents() > self.rooms().0, Sight::With11),
        ]
    }
}

#[derive(Default)]
struct Washups {
    /// The washup that is being applied.
    found: Option<Found>,
    /// The washup that was accepted last.
    last: Option<Entry>,
}

/// The entry without what stands in the fields that a washup lacks.
fn only_washup(entry: &Entry) -> Entry {
    Entry { tier: 0, cents: 0, ..*entry }
}

impl Washups {
    fn there_and_back(&mut self, found: &Found) -> bool {
        let entry = only_washup(&found.entry);
        let turned = self.last.as_ref().map(washup::turned) == Some(entry);
        self.last = Some(entry);
        turned && found.way() != Ordering::Equal
    }
}

impl Watch for Washups {
    fn made(&mut self, _: &Made, _: &mut Seen) {
        *self = Washups::default();
    }

    fn before(&mut self, book: &Book, entry: &Entry) {
        self.found = Found::in_book(book, entry);
    }

    fn after(&mut self, _: &Book, applied: &Applied, seen: &mut Seen) {
        let Some(found) = self.found.take() else {
            return;
        };
        let mut sights = match applied.answer.number {
            ACCEPTED => found.accepted(),
            TOTAL_PASSES_BOUND => found.refused_with_11(),
            EARLIER_PERIOD_OUTSIDE => found.refused_with_16(),
            _ => vec![],
        };
        if applied.answer.number == ACCEPTED {
            sights.push((self.there_and_back(&found), Sight::ThereAndBack));
        }
        for (_, sight) in sights.into_iter().filter(|(is_so, _)| *is_so) {
            seen.see_in(sight, found.entry.side.into());
        }
    }
}
