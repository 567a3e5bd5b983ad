//! Inputs that cannot be read and outputs that cannot be written: the listing says so in one line
//! on standard error, and takes no further entry. A pipe that nobody reads is such an output.

use super::inputs::{file, packet_sockets, told, write_packets};
use super::{entry_ends, Run};
use crate::compare::program::{read_all, shown, Printed};
use crate::generate::feeds;
use crate::judge::first_difference;
use crate::report::Part;
use reckoning::programs::listing::listing_within;
use reckoning::rules::limits::Limits;
use reckoning::rules::month_a;
use std::fs::File;
use std::io::{self, Read, Seek};
use std::os::fd::OwnedFd;
use std::os::unix::net::UnixStream;
use std::thread;

pub const NOT_READ: &[u8] = b"listing: standard input cannot be read\n";
pub const NOT_WRITTEN: &[u8] = b"listing: standard output cannot be written\n";
/// So many bytes are read of a pipe before its reader is gone.
const READ_BEFORE: u64 = 10_000;

fn judge_errors(wanted: &[u8], printed: &Printed) -> Result<(), String> {
    if wanted == printed.errors {
        return Ok(());
    }
    Err(format!("standard error: wanted {}, found {}", shown(wanted), shown(&printed.errors)))
}

/// Whether a program prints the whole entries that an input gives it, and that it cannot read on.
fn judge_input(limits: Limits, feed: &[u8], input: OwnedFd, run: &impl Run) -> Result<(), String> {
    let printed = run(input, None)?;
    let whole = entry_ends(feed).pop().map_or(0, |end| end.min(feed.len()));
    match first_difference(&listing_within(limits, &feed[..whole]), &printed.output) {
        Some(difference) => Err(difference),
        None => judge_errors(NOT_READ, &printed),
    }
}

/// The same where packets up to the ends given can be read, and then a read fails.
fn judge_failing(
    limits: Limits,
    feed: &[u8],
    ends: &[usize],
    run: &impl Run,
) -> Result<(), String> {
    let (ours, input) = packet_sockets()?;
    // A read would have to wait for more bytes, and is told not to.
    input.set_nonblocking(true).and_then(|()| ours.set_nonblocking(true)).map_err(told)?;
    if write_packets(&ours, feed, ends) < ends.len() as u64 {
        return Err("the packets are too many".into());
    }
    judge_input(limits, &feed[..ends.last().copied().unwrap_or(0)], input.into(), run)
}

/// What failed, and how that was judged.
type Failure = (String, Result<(), String>);

/// Inputs of which no byte can be read, and those that fail after some.
fn inputs(limits: Limits, run: &impl Run) -> Vec<Failure> {
    let for_writing = File::options().write(true).open("/dev/null");
    let unreadable = [("a directory", File::open("/")), ("a file for writing", for_writing)];
    let unreadable = unreadable.map(|(name, file)| {
        let judge = |file: File| judge_input(limits, &[], file.into(), run);
        (format!("the input is {name}"), file.map_err(told).and_then(judge))
    });
    let feed = feeds::feed_within(limits, 1, "wide").expect("a kind that exists");
    let whole = entry_ends(&feed)[500];
    // Nothing, n alone, an entry's part, whole entries, and parts over several reads.
    let failing: [&[usize]; 7] = [
        &[],
        &[1],
        &[5],
        &[whole],
        &[whole - 1],
        &[1, 100, whole],
        &[3, whole + 1, whole + 2, 20_000, feed.len() - 1],
    ];
    let failing = failing.map(|ends| {
        let name = format!("the input fails after bytes {ends:?}");
        (name, judge_failing(limits, &feed, ends, run))
    });
    unreadable.into_iter().chain(failing).collect()
}

/// How many bytes of a feed a program reads that cannot write to an output, and says so.
fn taken(feed: &[u8], output: OwnedFd, run: &impl Run) -> Result<u64, String> {
    let mut input = file(feed)?;
    // The copy stands where the program has read to.
    let copy = input.try_clone().map_err(told)?;
    judge_errors(NOT_WRITTEN, &run(copy.into(), Some(output))?)?;
    input.stream_position().map_err(told)
}

/// How a program ends whose output takes no byte.
fn judge_none(feed: &[u8], output: OwnedFd, run: &impl Run) -> Result<(), String> {
    match taken(feed, output, run)? {
        0 => Ok(()),
        taken => Err(format!("{taken} bytes were read, though the header could not be written")),
    }
}

/// How a program ends whose output is full from the first byte on.
fn judge_full(feed: &[u8], run: &impl Run) -> Result<(), String> {
    let full = File::options().write(true).open("/dev/full").map_err(told)?;
    judge_none(feed, full.into(), run)
}

/// How a program ends whose output is a pipe without a reader.
fn judge_without_reader(feed: &[u8], run: &impl Run) -> Result<(), String> {
    let (reader, output) = io::pipe().map_err(told)?;
    drop(reader);
    judge_none(feed, output.into(), run)
}

/// Whether an output took the start of a feed's listing, and not the whole feed was read for it.
fn judge_start(limits: Limits, feed: &[u8], output: &[u8], taken: u64) -> Result<(), String> {
    if output.is_empty() || !listing_within(limits, feed).starts_with(output) {
        return Err("what was written before is not the start of the listing".into());
    }
    if taken == feed.len() as u64 {
        return Err("the whole feed was read, though its listing could not be written".into());
    }
    Ok(())
}

/// How a program ends whose output takes some bytes, and then no more.
fn judge_filled(limits: Limits, feed: &[u8], run: &impl Run) -> Result<(), String> {
    let (ours, output) = UnixStream::pair().map_err(told)?;
    // A write would have to wait until bytes are read here, and is told not to.
    output.set_nonblocking(true).map_err(told)?;
    let taken = taken(feed, output.into(), run)?;
    judge_start(limits, feed, &read_all(ours).map_err(told)?, taken)
}

/// How a program ends whose output is a pipe, of which some bytes are read before its reader is gone.
fn judge_left(limits: Limits, feed: &[u8], run: &impl Run) -> Result<(), String> {
    let (ours, output) = io::pipe().map_err(told)?;
    thread::scope(|scope| {
        let reader = scope.spawn(|| read_all(ours.take(READ_BEFORE)));
        let taken = taken(feed, output.into(), run)?;
        let read = reader.join().expect("a reader ends").map_err(told)?;
        judge_start(limits, feed, &read, taken)
    })
}

fn outputs(limits: Limits, run: &impl Run) -> Vec<Failure> {
    let month_a = month_a::feed();
    let long = feeds::feed_within(limits, 1, "long").expect("a kind that exists");
    let judged = [
        ("is full, no input", judge_full(&[], run)),
        ("is full, month A", judge_full(&month_a, run)),
        ("is full, feed long seed 1", judge_full(&long, run)),
        ("fails after some bytes, feed long seed 1", judge_filled(limits, &long, run)),
        ("is a pipe without a reader, month A", judge_without_reader(&month_a, run)),
        ("is a pipe without a reader, feed long seed 1", judge_without_reader(&long, run)),
        ("is a pipe whose reader leaves, feed long seed 1", judge_left(limits, &long, run)),
    ];
    judged.into_iter().map(|(name, judged)| (format!("the output {name}"), judged)).collect()
}

/// Holds a program, whose book has some limits, to what it must say where its input or its output
/// fails; what was covered. A demonstration says the same as a listing.
pub fn failures(part: &mut Part, limits: Limits, run: &impl Run) -> String {
    let judged = [inputs(limits, run), outputs(limits, run)].concat();
    for (name, judged) in &judged {
        part.take(name, judged.clone());
    }
    format!("{} failing inputs and outputs", judged.len())
}
