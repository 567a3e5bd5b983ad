//! Hands a feed to a program while it is made, and holds what the program prints to
//! the reckoning's listing of the same bytes. Little of either is kept at a time.

use super::rotation::{Reach, Rotation};
use crate::judge::difference_after;
use reckoning::programs::listing;
use std::collections::VecDeque;
use std::io::{self, BufWriter, Read, Write};
use std::sync::mpsc::{self, Receiver, SyncSender};
use std::thread;

/// The reckoning takes so many entries at once from the feed, and gives so many bytes of its listing.
const AT_ONCE: usize = 1 << 12;
const BLOCK: usize = 1 << 16;
/// Blocks that may wait between two threads. They are more than a program holds
/// back before it prints, so that no thread waits for one that waits for it.
const WAITING: usize = 64;

/// What was compared so far, and did not differ.
#[derive(Clone, Debug, Default)]
pub struct Compared {
    pub lines: u64,
    pub payout_lines: u64,
    /// The line that the texts stand in, as far as they were compared.
    line: Vec<u8>,
}

impl Compared {
    /// The lines of entries: all but the header's and the payouts'.
    pub fn entries(&self) -> u64 {
        self.lines.saturating_sub(self.payout_lines + 1)
    }

    fn take(&mut self, reckoned: &[u8], found: &[u8]) -> Result<(), String> {
        let texts = [reckoned, found].map(|text| [&self.line, text].concat());
        if let Some(difference) = difference_after(self.lines, &texts[0], &texts[1]) {
            return Err(difference);
        }
        self.line.clear();
        for line in texts[0].split_inclusive(|&byte| byte == b'\n') {
            if line.ends_with(b"\n") {
                self.lines += 1;
                self.payout_lines += u64::from(line.starts_with(b"p"));
            } else {
                self.line = line.to_vec();
            }
        }
        Ok(())
    }
}

/// The feed as the reckoning reads it; each block goes to the program too.
struct Feed<I: Iterator<Item = Vec<u8>>> {
    /// n, and each entry.
    parts: I,
    to_program: SyncSender<Vec<u8>>,
    block: VecDeque<u8>,
}

impl<I: Iterator<Item = Vec<u8>>> Read for Feed<I> {
    fn read(&mut self, lent: &mut [u8]) -> io::Result<usize> {
        if self.block.is_empty() {
            self.block.extend(self.parts.by_ref().take(AT_ONCE).flatten());
            // A program that stopped reading is told by what it prints.
            self.to_program.send(self.block.iter().copied().collect()).ok();
        }
        self.block.read(lent)
    }
}

/// The reckoned listing on its way to the comparison.
struct Reckoned(SyncSender<Vec<u8>>);

impl Write for Reckoned {
    fn write(&mut self, bytes: &[u8]) -> io::Result<usize> {
        let sent = self.0.send(bytes.to_vec());
        sent.map(|()| bytes.len()).map_err(|_| io::ErrorKind::BrokenPipe.into())
    }

    fn flush(&mut self) -> io::Result<()> {
        Ok(())
    }
}

/// Compares what the program prints with the reckoned blocks; after them it must print nothing more.
fn compare(
    blocks: Receiver<Vec<u8>>,
    mut found: impl Read,
    mut watch: impl FnMut(&Compared),
) -> Result<Compared, String> {
    let mut compared = Compared::default();
    for block in blocks.into_iter().chain([vec![]]) {
        let count = if block.is_empty() { BLOCK } else { block.len() };
        let mut printed = Vec::with_capacity(count);
        let read = found.by_ref().take(count as u64).read_to_end(&mut printed);
        read.map_err(|error| error.to_string())?;
        compared.take(&block, &printed)?;
        watch(&compared);
    }
    Ok(compared)
}

/// Holds a program, by its input and output, to the reckoning: what the feed came to, and what was
/// compared, or where the first difference is. Each block that was compared is shown.
pub fn hold(
    mut rotation: Rotation,
    mut input: impl Write + Send,
    output: impl Read + Send,
    watch: impl FnMut(&Compared) + Send,
) -> Result<(Reach, Compared), String> {
    thread::scope(|scope| {
        let (to_program, blocks) = mpsc::sync_channel::<Vec<u8>>(WAITING);
        let (to_comparison, reckoned) = mpsc::sync_channel(WAITING);
        scope.spawn(move || blocks.iter().try_for_each(|block| input.write_all(&block)));
        let comparison = scope.spawn(move || compare(reckoned, output, watch));
        let plan = rotation.plan;
        let parts = [vec![plan.n]].into_iter().chain(rotation.by_ref().map(|it| it.bytes()));
        let feed = Feed { parts, to_program, block: VecDeque::new() };
        let mut out = BufWriter::with_capacity(BLOCK, Reckoned(to_comparison));
        let listed = listing::list(plan.limits, feed, &mut out).and_then(|()| out.flush());
        drop(out);
        let compared = comparison.join().expect("the comparison ends")?;
        // The reckoning is cut short only by a comparison that ended in a difference.
        listed.map_err(|error| error.to_string())?;
        Ok((rotation.into_reach(), compared))
    })
}
