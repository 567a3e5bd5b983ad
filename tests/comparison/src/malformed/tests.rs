//! The malformed feeds against listings in this process, right ones and wrong ones.

use super::{bytes, every_feed, judge_all, noise, Feeds, Judged, Run, SHARE};
use crate::report::Part;
use reckoning::programs::listing::{listing, listing_within};
use reckoning::rules::book::Book;
use reckoning::rules::limits::{Limits, DEMONSTRATION, MARKET};

const FEEDS: usize = 2_000;

/// What a listing that puts one text for another prints.
fn wrong(feed: &[u8], from: &str, to: &str) -> Result<Vec<u8>, String> {
    let text = String::from_utf8(listing(feed)).unwrap();
    Ok(text.replace(from, to).into_bytes())
}

fn of_noise(run: &Run) -> (Feeds, Judged) {
    let [_, _, noise] = every_feed(MARKET, SHARE, FEEDS);
    let judged = noise.judge(&Part::new("malformed", false), MARKET, run);
    (noise, judged)
}

fn stand(feeds: &[Feeds], limits: Limits, run: &Run) -> bool {
    judge_all("", feeds, (limits, run), false)
}

#[test]
fn each_act_is_accepted_after_the_scene_alone_and_in_order() {
    for n in bytes::EVERY_N {
        let mut book = Book::alone(n.into());
        for entry in bytes::scene() {
            assert_eq!(book.apply(&entry, &mut [0; 64]).number, 0, "{entry:?}");
        }
        let scene = book.clone();
        for entry in bytes::acts() {
            assert_eq!(scene.clone().apply(&entry, &mut [0; 64]).number, 0, "{entry:?}");
            assert_eq!(book.apply(&entry, &mut [0; 64]).number, 0, "{entry:?}");
        }
    }
}

/// The demonstration's share; of the listing's feeds a part too, since here the time counts.
#[test]
fn a_right_listing_stands_in_its_own_book_alone() {
    for (limits, others) in [(MARKET, DEMONSTRATION), (DEMONSTRATION, MARKET)] {
        let right = |feed: &[u8]| Ok(listing_within(limits, feed));
        assert!(stand(&every_feed(limits, SHARE, FEEDS), limits, &right));
        assert!(!stand(&every_feed(others, SHARE, FEEDS), others, &right));
    }
}

#[test]
fn each_wrong_answer_to_bytes_is_told() {
    for (from, to) in [(" 1 0 ", " 2 0 "), (" 2 0 ", " 3 0 "), (" 3 0 ", " 0 0 ")] {
        let hit = |&number: &usize| {
            let right = String::from_utf8(listing(&noise::feed(number as u64))).unwrap();
            right.contains(from)
        };
        let (_, judged) = of_noise(&|feed| wrong(feed, from, to));
        let told: Vec<usize> = judged.different.iter().map(|&(number, _)| number).collect();
        assert_eq!(told, (0..FEEDS).filter(hit).collect::<Vec<_>>(), "{from}");
        assert!(judged.different[0].1.starts_with("line "), "{from}");
    }
}

/// By what it prints, or by how it ends.
#[test]
fn a_program_wrong_on_one_feed_is_told_in_each_part() {
    let every = every_feed(MARKET, SHARE, FEEDS);
    for feeds in &every {
        let chosen = (feeds.feed)(*feeds.numbers.last().unwrap());
        let right = |feed: &[u8]| (feed != chosen).then(|| listing(feed));
        let failing = |feed: &[u8]| right(feed).ok_or("ended by a signal".to_string());
        assert!(!stand(&every, MARKET, &|feed| Ok(right(feed).unwrap_or_default())));
        assert!(!stand(&every, MARKET, &failing));
    }
}

#[test]
fn feeds_that_never_show_an_answer_cover_too_little() {
    let (mut noise, judged) = of_noise(&|feed| Ok(listing(feed)));
    for (answers, stands) in [(vec![0, 1, 2, 3, 4], true), (vec![5], false)] {
        noise.answers = answers;
        assert_eq!(noise.stands(Part::new("malformed", false), &judged), stands);
    }
}
