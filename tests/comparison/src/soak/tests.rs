//! The soak against right listings and wrong ones.

use super::plan::Plan;
use super::rotation::{Reach, Rotation};
use super::streams::{hold, Compared};
use super::{require, SEED};
use crate::report::Part;
use reckoning::programs::listing::listing_within;
use reckoning::rules::limits::{DEMONSTRATION, MARKET};
use std::io;

const PLAN: Plan = Plan { limits: MARKET, n: 5, entries: 100_000, months: 400 };

/// Whether a feed had all that it is meant to have.
fn covered(plan: &Plan, reach: &Reach) -> bool {
    let mut part = Part::new("soak", false);
    require(&mut part, plan, reach);
    part.end("a feed")
}

/// The right listing of a plan's feed.
fn right(plan: Plan) -> Vec<u8> {
    let entries = Rotation::new(plan, SEED).flat_map(|entry| entry.bytes());
    let feed: Vec<u8> = [plan.n].into_iter().chain(entries).collect();
    listing_within(plan.limits, &feed)
}

fn held(plan: Plan, found: &[u8]) -> Result<(Reach, Compared), String> {
    hold(Rotation::new(plan, SEED), io::sink(), found, |_| ())
}

/// Each sight that a soak must show is held to it where sights are registered.
#[test]
fn a_right_listing_stands_in_each_book_and_covers_enough() {
    for plan in [PLAN, Plan { limits: DEMONSTRATION, ..PLAN }] {
        let (reach, compared) = held(plan, &right(plan)).unwrap();
        assert_eq!((compared.entries(), reach.entries), (plan.entries, plan.entries));
        assert!(compared.payout_lines > 0 && covered(&plan, &reach), "{reach:?}");
        let most_periods = reach.most_periods - 1;
        assert!(!covered(&plan, &Reach { most_periods, ..reach.clone() }));
        assert!(!covered(&plan, &Reach { seen: Default::default(), ..reach }));
    }
}

#[test]
fn a_short_feed_covers_too_little() {
    let short = Plan { entries: 300, months: 2, ..PLAN };
    assert!(!covered(&short, &held(short, &right(short)).unwrap().0));
}

#[test]
fn one_byte_anywhere_in_the_listing_is_told_with_its_line() {
    let mut text = right(PLAN);
    let lines = text.iter().filter(|&&byte| byte == b'\n').count();
    for at in [0, text.len() / 2, text.len() - 2, text.len() - 1] {
        text[at] ^= 1;
        let what = held(PLAN, &text).unwrap_err();
        text[at] ^= 1;
        assert!(what.starts_with("line "), "{what}");
        let last = what.starts_with(&format!("line {lines}:"));
        assert_eq!(last, at + 2 >= text.len(), "{what}");
    }
    for cut in [0, text.len() / 2, text.len() - 1] {
        assert!(held(PLAN, &text[..cut]).is_err());
    }
    let more = held(PLAN, &[&text, &b"1 0 0 0\n"[..]].concat()).unwrap_err();
    assert!(more.starts_with(&format!("line {}: reckoned no line", lines + 1)), "{more}");
}
