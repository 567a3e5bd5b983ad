//! Rules put in another form, over random months, feeds and entries.

mod clause_14_59;
mod codec;
mod groups;
mod purses;
mod sharing;
mod washups;

use crate::generate::feeds;
use reckoning::rules::book::{Answer, Book};
use reckoning::rules::codec::{read, Entry};

/// A book that has a rule in another form.
trait Other {
    fn apply(&mut self, entry: &Entry, words: &mut [u64]) -> Answer;
    fn held(&self) -> u128;
}

/// Holds a book to one of another form over 120 feeds of a kind and ten of each of others: every answer,
/// payout word, number of rounds and the cents held. The books of the other form, after their feeds.
fn hold<B: Other>(kind: &str, others: [&str; 2], make: fn(Book) -> B) -> Vec<B> {
    let of_others = (0..10).flat_map(|seed| others.map(|kind| (seed, kind)));
    let seeds = (0..120).map(|seed| (seed, kind)).chain(of_others);
    let held = seeds.map(|(seed, kind)| {
        let feed = feeds::feed(seed, kind).unwrap();
        let mut book = Book::alone(feed[0].into());
        let (mut other, mut place) = (make(book.clone()), 1);
        while let Ok((entry, next)) = read(&feed, place) {
            let (mut one, mut two) = (vec![9; book.n], vec![9; book.n]);
            let answers = (book.apply(&entry, &mut one), other.apply(&entry, &mut two));
            assert_eq!(answers.0, answers.1, "{entry:?}");
            assert_eq!((one, book.held()), (two, other.held()), "{entry:?}");
            place = next;
        }
        other
    });
    held.collect()
}
