//! Lists that a book accepts throughout, in that book and in others whose limits are not below (02, f).

use crate::compare::same_payouts::{self, List};
use crate::compare::{listings, trials};
use crate::coverage::{Place, Seen};
use crate::judge::first_difference;
use crate::report::{grouped, Part};
use crate::workers::judge_each;
use reckoning::rules::limits::{DEMONSTRATION, MARKET};

/// How a program differs, and the input that shows it.
type Different = (Vec<u8>, String);

/// Judges the trial program on a list: right in each book, and with the same payouts.
fn judge_trials(path: &str, list: &List) -> Result<(), Different> {
    let calls = list.in_its_book();
    let of_its_book = |what| (calls.clone(), what);
    let (in_its_book, ..) = trials::judge(path, &calls).map_err(of_its_book)?;
    same_payouts::accepted(&in_its_book).map_err(of_its_book)?;
    for (of, calls) in list.in_others() {
        let of_another = |what| (calls.clone(), format!("{of}: {what}"));
        let (in_another, ..) = trials::judge(path, &calls).map_err(of_another)?;
        same_payouts::same(&in_its_book, &in_another).map_err(of_another)?;
    }
    Ok(())
}

/// Judges both listing programs on the feed of a list: each right, and alike.
fn judge_feeds(listing: &str, demonstration: &str, list: &List) -> Result<(), Different> {
    let feed = list.feed();
    let differs = |what| (feed.clone(), what);
    let (large, ..) = listings::judge(MARKET, listing, &feed).map_err(differs)?;
    let (small, ..) = listings::judge(DEMONSTRATION, demonstration, &feed).map_err(differs)?;
    let difference = first_difference(&small, &large);
    difference.map_or(Ok(()), |what| Err(differs(format!("both listings: {what}"))))
}

/// Draws lists from seeds and judges each.
fn compare(
    mut part: Part,
    place: Place,
    count: u64,
    list: fn(u64) -> List,
    judge: impl Fn(&List) -> Result<(), Different> + Sync,
) -> bool {
    let (seeds, mut seen): (Vec<u64>, _) = ((0..count).collect(), Seen::default());
    let judge = |&seed: &u64| {
        let list = list(seed);
        judge(&list).map(|()| list.seen)
    };
    for (seed, (input, what)) in judge_each(&part, &seeds, judge, |found| seen.add(&found)) {
        part.differs(&format!("list seed {seed}"), &input, &what);
    }
    part.require(place, &seen);
    part.end(&format!("{} lists", grouped(count)))
}

/// Puts lists to the trial program, in two other books each; true only if all agree.
pub fn compare_trials(path: &str, details: bool) -> bool {
    let part = Part::new("same payouts in trials", details);
    compare(part, Place::Lists, same_payouts::LISTS, same_payouts::list, |list| {
        judge_trials(path, list)
    })
}

/// Puts feeds that a demonstration book accepts throughout to both listing programs; true only if all
/// agree.
pub fn compare_feeds(listing: &str, demonstration: &str, details: bool) -> bool {
    let part = Part::new("same payouts in listings", details);
    compare(part, Place::ListedLists, same_payouts::FEEDS, same_payouts::list_of_class, |list| {
        judge_feeds(listing, demonstration, list)
    })
}
