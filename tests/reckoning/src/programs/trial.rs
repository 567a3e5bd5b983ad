//! The trial: from calls to the text that the trial program prints for them.

use crate::programs::observer::{apply, Made, MadeBy, Observer};
use crate::rules::book::{Book, Make};
use crate::rules::codec::{self, Entry, Field};
use crate::rules::limits::Limits;
use crate::rules::making::Making;
use crate::rules::refusals::ACCEPTED;
use std::fmt::{Display, Write as _};
use std::io::{self, Read, Write};

/// Each payout word before a call.
const WORD_BEFORE: u64 = 9;
/// Each byte lent to the writer before a call.
const BYTE_BEFORE: u8 = 238;

/// The fields of a call, in their order.
pub const CALL_FIELDS: [Field; 9] = [
    Field::Period,
    Field::Participant,
    Field::Side,
    Field::Tier,
    Field::Quantity,
    Field::Price,
    Field::Cents,
    Field::EarlierPeriod,
    Field::OldQuantity,
];

/// The next field of so many bytes; nothing where the input is cut.
fn take(input: &mut impl Read, width: usize) -> Option<u64> {
    let mut bytes = [0; 8];
    input.read_exact(&mut bytes[..width]).ok()?;
    Some(codec::number(&bytes))
}

/// An entry with its fields as they are; nothing for a kind that does not exist.
fn take_entry(input: &mut impl Read) -> Option<Entry> {
    let kind = take(input, 1)? as u8;
    if !codec::kind_exists(kind) {
        return None;
    }
    let mut entry = Entry { kind, ..Entry::default() };
    for field in CALL_FIELDS {
        entry.set(field, take(input, codec::width(field))?);
    }
    Some(entry)
}

fn with_numbers<T: Display>(mut line: String, numbers: impl IntoIterator<Item = T>) -> String {
    for number in numbers {
        write!(line, " {number}").expect("a string takes every number");
    }
    line
}

/// n, 64 group numbers of a byte each, and 64 reserves of eight bytes each, for a market book.
fn take_making(input: &mut impl Read) -> Option<Making> {
    let mut making = Making::alone(take(input, 8)?);
    input.read_exact(&mut making.groups).ok()?;
    for cents in &mut making.reserves {
        *cents = take(input, 8)?;
    }
    Some(making)
}

/// The same, and then both limits of eight bytes each.
fn take_limited_making(input: &mut impl Read) -> Option<Making> {
    let making = take_making(input)?;
    let limits = Limits { participants: take(input, 8)?, periods: take(input, 8)? };
    Some(Making { limits, ..making })
}

/// The book that calls go to, what makes the next one, and who watches them.
struct Trial<'a, O: Observer> {
    book: Book,
    make: Make,
    observer: &'a mut O,
}

fn call_read(input: &mut impl Read) -> Option<String> {
    let place = take(input, 8)?;
    let mut bytes = vec![0; take(input, 2)? as usize];
    input.read_exact(&mut bytes).ok()?;
    Some(match codec::read(&bytes, place) {
        Err(refusal) => format!("read {refusal} {place}"),
        Ok((entry, next)) => {
            let line = format!("read {ACCEPTED} {next} {}", entry.kind);
            with_numbers(line, codec::layout(entry.kind).iter().map(|&field| entry.value(field)))
        }
    })
}

fn call_write(input: &mut impl Read) -> Option<String> {
    let entry = take_entry(input)?;
    let mut lent = vec![BYTE_BEFORE; take(input, 1)? as usize];
    let (answer, count) = match codec::write(&entry, &mut lent) {
        Ok(count) => (ACCEPTED, count),
        Err(refusal) => (refusal, 0),
    };
    Some(with_numbers(format!("write {answer} {count}"), lent))
}

impl<O: Observer> Trial<'_, O> {
    fn made(&mut self, by: MadeBy, making: &Making) -> String {
        let (book, answer) = (self.make)(making);
        self.observer.made(&Made { by, before: &self.book, making, answer });
        self.book = book;
        format!("book {answer}")
    }

    fn call_apply(&mut self, input: &mut impl Read) -> Option<String> {
        let entry = take_entry(input)?;
        let mut words = vec![WORD_BEFORE; take(input, 1)? as usize];
        let answer = apply(&mut self.book, &entry, &mut words, self.observer);
        let line = format!("apply {} {} {}", answer.number, answer.rounds, self.book.held());
        Some(with_numbers(line, words))
    }

    /// The line of the next call; nothing where the trial program stops.
    fn call(&mut self, input: &mut impl Read) -> Option<String> {
        match take(input, 1)? as u8 {
            b'B' => Some(self.made(MadeBy::B, &Making::alone(take(input, 8)?))),
            b'G' => Some(self.made(MadeBy::G, &take_making(input)?)),
            b'L' => Some(self.made(MadeBy::L, &take_limited_making(input)?)),
            b'A' => self.call_apply(input),
            b'R' => call_read(input),
            b'W' => call_write(input),
            _ => None,
        }
    }
}

/// Prints a line for each call, where books are made so, under the eyes of an observer.
fn run_by(
    make: Make,
    mut input: impl Read,
    out: &mut impl Write,
    observer: &mut impl Observer,
) -> io::Result<()> {
    // Before the first book is made, entries come to one without participants.
    let mut trial = Trial { book: Book::alone(0), make, observer };
    while let Some(line) = trial.call(&mut input) {
        writeln!(out, "{line}")?;
    }
    Ok(())
}

/// Prints a line for each call.
pub fn run(input: impl Read, out: &mut impl Write) -> io::Result<()> {
    run_by(Book::make, input, out, &mut ())
}

/// The lines for calls that are in memory, where books are made so, under the eyes of an observer.
pub fn lines(make: Make, calls: &[u8], observer: &mut impl Observer) -> Vec<u8> {
    let mut out = Vec::new();
    run_by(make, calls, &mut out, observer).expect("memory takes every byte");
    out
}

/// The lines for calls that are in memory.
pub fn expected(calls: &[u8]) -> Vec<u8> {
    lines(Book::make, calls, &mut ())
}
