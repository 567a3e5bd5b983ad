//! Who watches the book of a program: told of each book that is made, and of each entry before and
//! after it is applied.

use crate::rules::book::{Answer, Book};
use crate::rules::codec::Entry;
use crate::rules::making::Making;

/// What makes a book: a listing, or a call of a trial.
#[derive(Clone, Copy, Debug, PartialEq, Eq)]
pub enum MadeBy {
    Listing,
    B,
    G,
    L,
}

/// A book that takes the place of the one before, and the answer to its making.
#[derive(Clone, Copy, Debug)]
pub struct Made<'a> {
    pub by: MadeBy,
    pub before: &'a Book,
    pub making: &'a Making,
    pub answer: u8,
}

/// An entry that was applied, its answer, and the payout words as it left them.
#[derive(Clone, Copy, Debug)]
pub struct Applied<'a> {
    pub entry: &'a Entry,
    pub answer: Answer,
    pub words: &'a [u64],
}

pub trait Observer {
    fn made(&mut self, _: &Made) {}

    /// An entry is about to be applied to this book.
    fn before(&mut self, _: &Book, _: &Entry) {}

    /// It was applied, and left this book.
    fn after(&mut self, _: &Book, _: &Applied) {}
}

/// Sees nothing.
impl Observer for () {}

/// Applies an entry under the eyes of an observer.
pub fn apply(
    book: &mut Book,
    entry: &Entry,
    words: &mut [u64],
    observer: &mut impl Observer,
) -> Answer {
    observer.before(book, entry);
    let answer = book.apply(entry, words);
    observer.after(book, &Applied { entry, answer, words });
    answer
}
