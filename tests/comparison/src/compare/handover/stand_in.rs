//! A listing in this process that reads in blocks, right or wrong in a chosen way.

use super::failures::{NOT_READ, NOT_WRITTEN};
use super::{Run, BLOCK};
use crate::compare::program::Printed;
use reckoning::programs::listing::listing_within;
use reckoning::rules::codec;
use reckoning::rules::limits::Limits;
use std::fs::File;
use std::io::{ErrorKind, Read, Write};
use std::os::fd::OwnedFd;

/// What a listing does wrong.
#[derive(Clone, Copy, Debug, PartialEq, Eq)]
pub enum Wrong {
    Nothing,
    EndsAfterReads(u64),
    /// Takes a read that does not fill the block for the last.
    EndsAtShortRead,
    /// Prints no entry before the end of the input.
    PrintsAtEnd,
    /// Prints the header when it has read n.
    HeaderAfterRead,
    /// Loses the byte after each full block.
    SkipsAtBlockEnd,
    /// Loses it where the block ends after so many bytes of an entry.
    SkipsAfterPart(usize),
    SilentOnInput,
    SilentOnOutput,
    /// Says something wherever nothing fails.
    SaysMore,
    /// Lists an entry's part where the input fails.
    ListsPart,
    /// Reads on where its output fails.
    ReadsOn,
    /// Says nothing where its output is a pipe without a reader, and where else it fails says so.
    SilentWithoutReader,
    /// Reads on there alone.
    ReadsOnWithoutReader,
}

struct StandIn {
    /// Those of its book.
    limits: Limits,
    wrong: Wrong,
    /// The standard output, if one is given.
    out: Option<File>,
    /// How a write failed, if one did; nothing is printed after it.
    lost: Option<ErrorKind>,
    printed: Vec<u8>,
    /// What was read of the feed, and how much of it is n and whole entries.
    feed: Vec<u8>,
    whole: usize,
}

impl StandIn {
    /// Prints what is new in the listing of the first bytes; whether the stand-in goes on.
    fn print(&mut self, count: usize) -> bool {
        if self.lost.is_none() {
            let text = listing_within(self.limits, &self.feed[..count]);
            let new = &text[self.printed.len()..];
            let written = self.out.as_mut().map_or(Ok(()), |out| out.write_all(new));
            self.lost = written.err().map(|error| error.kind());
            self.printed = text;
        }
        let reads_on = match self.wrong {
            Wrong::ReadsOn => true,
            Wrong::ReadsOnWithoutReader => self.has_no_reader(),
            _ => false,
        };
        self.lost.is_none() || reads_on
    }

    fn has_no_reader(&self) -> bool {
        self.lost == Some(ErrorKind::BrokenPipe)
    }

    fn take(&mut self, bytes: &[u8]) {
        self.feed.extend(bytes);
        self.whole = self.whole.max(self.feed.len().min(1));
        while let Ok((_, next)) = codec::read(&self.feed, self.whole as u64) {
            self.whole = next as usize;
        }
    }

    /// Reads an input; whether a read of it failed.
    fn read(&mut self, mut input: File) -> bool {
        let (mut reads, mut skip) = (0, 0);
        let mut block = vec![0; BLOCK];
        while self.wrong != Wrong::EndsAfterReads(reads) {
            let room = BLOCK - (self.feed.len() - self.whole);
            let count = match input.read(&mut block[..room]) {
                Err(_) => return true,
                Ok(0) => return false,
                Ok(count) => count,
            };
            reads += 1;
            self.take(&block[skip..count]);
            let full = count == room;
            let skips =
                [Wrong::SkipsAtBlockEnd, Wrong::SkipsAfterPart(self.feed.len() - self.whole)];
            skip = usize::from(full && skips.contains(&self.wrong));
            // Where no output is given, all is printed at the end.
            let at_end = self.out.is_none() || self.wrong == Wrong::PrintsAtEnd;
            let goes_on = at_end || self.print(self.whole);
            if !goes_on || (!full && self.wrong == Wrong::EndsAtShortRead) {
                return false;
            }
        }
        false
    }

    /// Prints the listing of an input.
    fn list(mut self, input: File) -> Printed {
        let begun = self.wrong == Wrong::HeaderAfterRead || self.print(0);
        let failed = begun && self.read(input);
        let part = !failed || self.wrong == Wrong::ListsPart;
        self.print(if part { self.feed.len() } else { self.whole });
        let errors: &[u8] = match self.wrong {
            Wrong::SilentOnOutput if self.lost.is_some() => b"",
            Wrong::SilentWithoutReader if self.has_no_reader() => b"",
            Wrong::SilentOnInput if failed => b"",
            _ if self.lost.is_some() => NOT_WRITTEN,
            _ if failed => NOT_READ,
            Wrong::SaysMore => b"listing: done\n",
            _ => b"",
        };
        Printed { output: self.printed, errors: errors.to_vec() }
    }
}

/// A listing with a book of some limits.
pub fn stand_in(limits: Limits, wrong: Wrong) -> impl Run {
    move |input: OwnedFd, output: Option<OwnedFd>| {
        let (out, printed, feed) = (output.map(File::from), vec![], vec![]);
        let stand_in = StandIn { limits, wrong, out, lost: None, printed, feed, whole: 0 };
        Ok(stand_in.list(input.into()))
    }
}
