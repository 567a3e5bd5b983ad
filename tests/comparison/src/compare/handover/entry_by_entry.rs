//! A feed entry by entry: the header must be there before n, and the lines of each entry before the next.

use super::inputs::{packet_sockets, told};
use super::{entry_ends, Run};
use crate::cases::feeds::example;
use crate::judge::first_difference;
use crate::report::Part;
use reckoning::programs::listing::listing_within;
use reckoning::rules::limits::Limits;
use std::io::{Read, Write};
use std::iter;
use std::os::unix::net::UnixStream;
use std::thread;
use std::time::Duration;

/// A feed with payouts that both books accept throughout.
const NAME: &str = "class";

/// Writes n, once the header was read, and then entry after entry, each once the lines of all before it were
/// read. Where they do not come, the feed ends, and the program with it.
fn ask(
    limits: Limits,
    feed: &[u8],
    mut to: UnixStream,
    mut from: UnixStream,
) -> Result<(), String> {
    let (mut written, mut read) = (0, 0);
    for end in iter::once(0).chain(entry_ends(feed)) {
        to.write_all(&feed[written..end]).map_err(told)?;
        let listed = listing_within(limits, &feed[..end]);
        let mut found = vec![0; listed.len() - read];
        let came = from.read_exact(&mut found);
        came.map_err(|error| format!("the lines of byte {end} did not come: {error}"))?;
        if let Some(difference) = first_difference(&listed[read..], &found) {
            return Err(format!("after byte {end}: {difference}"));
        }
        (written, read) = (end, listed.len());
    }
    Ok(())
}

fn judge(limits: Limits, feed: &[u8], patience: Duration, run: &impl Run) -> Result<(), String> {
    let (to, input) = packet_sockets()?;
    let (from, output) = UnixStream::pair().map_err(told)?;
    from.set_read_timeout(Some(patience)).map_err(told)?;
    thread::scope(|scope| {
        let asked = scope.spawn(|| ask(limits, feed, to, from));
        let ended = run(input.into(), Some(output.into())).and_then(|ended| ended.without_errors());
        asked.join().expect("it ends").and(ended.map(|_| ()))
    })
}

/// Holds a program, whose book has some limits, to the lines of each entry before the next is there;
/// what was covered. It has so much time for each.
pub fn entry_by_entry(
    part: &mut Part,
    limits: Limits,
    patience: Duration,
    run: &impl Run,
) -> String {
    let feed = example(NAME).expect("a name that exists");
    part.take(&format!("feed {NAME} entry by entry"), judge(limits, &feed, patience, run));
    format!("{} entries one by one", entry_ends(&feed).len() - 1)
}
