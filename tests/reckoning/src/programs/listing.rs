//! The listing: from the bytes of a feed to the text that 01's listing program prints.

use crate::programs::observer::{apply, Made, MadeBy, Observer};
use crate::rules::book::{Book, Make};
use crate::rules::codec::{self, Entry, LONGEST_ENTRY};
use crate::rules::limits::{Limits, MARKET};
use crate::rules::making::Making;
use crate::rules::refusals::ACCEPTED;
use std::io::{self, Read, Write};

const BLOCK: usize = 1 << 16;

/// A feed read in blocks.
struct Feed<R: Read> {
    input: R,
    block: Vec<u8>,
    place: usize,
    ended: bool,
}

impl<R: Read> Feed<R> {
    fn new(input: R) -> Feed<R> {
        Feed { input, block: Vec::with_capacity(BLOCK), place: 0, ended: false }
    }

    /// Reads on until the longest entry is at hand or the input has ended.
    fn refill(&mut self) -> io::Result<()> {
        if self.ended || self.block.len() - self.place >= LONGEST_ENTRY {
            return Ok(());
        }
        self.block.drain(..self.place);
        self.place = 0;
        while !self.ended && self.block.len() < LONGEST_ENTRY {
            let had = self.block.len();
            self.block.resize(BLOCK, 0);
            let count = self.input.read(&mut self.block[had..])?;
            self.block.truncate(had + count);
            self.ended = count == 0;
        }
        Ok(())
    }

    /// The first byte of the feed, which is n.
    fn n(&mut self) -> io::Result<Option<u8>> {
        self.refill()?;
        let n = self.block.get(self.place).copied();
        self.place += usize::from(n.is_some());
        Ok(n)
    }

    /// The next entry or its refusal; nothing at the end of the input.
    fn next(&mut self) -> io::Result<Option<Result<Entry, u8>>> {
        self.refill()?;
        if self.place == self.block.len() {
            return Ok(None);
        }
        let found = codec::read(&self.block, self.place as u64);
        Ok(Some(found.map(|(entry, place)| {
            self.place = place as usize;
            entry
        })))
    }
}

/// Prints an entry's line and a line for each non-zero payout.
pub fn print_entry(
    out: &mut impl Write,
    number: u64,
    answer: u8,
    words: &[u64],
    held: u128,
) -> io::Result<()> {
    let paid: u128 = words.iter().map(|&cents| u128::from(cents)).sum();
    writeln!(out, "{number} {answer} {paid} {held}")?;
    for (participant, &cents) in words.iter().enumerate().filter(|(_, &cents)| cents > 0) {
        writeln!(out, "pay {participant} {cents}")?;
    }
    Ok(())
}

/// Prints the listing of a feed in a book of some limits, reading the feed in blocks.
pub fn list(limits: Limits, input: impl Read, out: &mut impl Write) -> io::Result<()> {
    list_by((limits, Book::make), input, out, &mut ())
}

/// The same where the book is made so, under the eyes of an observer.
fn list_by(
    (limits, make): (Limits, Make),
    input: impl Read,
    out: &mut impl Write,
    observer: &mut impl Observer,
) -> io::Result<()> {
    let mut feed = Feed::new(input);
    writeln!(out, "entry answer paid held")?;
    let Some(n) = feed.n()? else {
        return Ok(());
    };
    let making = Making::within(limits, n.into());
    let (mut book, answer) = make(&making);
    let before = &Book::alone(0);
    observer.made(&Made { by: MadeBy::Listing, before, making: &making, answer });
    let mut number = 0;
    while let Some(found) = feed.next()? {
        number += 1;
        let entry = match found {
            Ok(entry) => entry,
            Err(refusal) => return print_entry(out, number, refusal, &[], book.held()),
        };
        let mut words = vec![0; book.n];
        let answer = apply(&mut book, &entry, &mut words, observer).number;
        let payouts = if answer == ACCEPTED { &words[..] } else { &[] };
        print_entry(out, number, answer, payouts, book.held())?;
    }
    Ok(())
}

/// The listing of a feed that is in memory, where the book is made so, under the eyes of an observer.
pub fn lines(by: (Limits, Make), feed: &[u8], observer: &mut impl Observer) -> Vec<u8> {
    let mut out = Vec::new();
    list_by(by, feed, &mut out, observer).expect("memory takes every byte");
    out
}

/// The listing of a feed that is in memory.
pub fn listing(feed: &[u8]) -> Vec<u8> {
    listing_within(MARKET, feed)
}

/// The same in a book of some limits.
pub fn listing_within(limits: Limits, feed: &[u8]) -> Vec<u8> {
    lines((limits, Book::make), feed, &mut ())
}
