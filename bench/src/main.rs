//! Measures the clearing book against the reckoning. bench/run builds and runs it.

mod batches;
mod feed;
mod listings;
mod months;
mod processor;
mod proportions;
mod refused;

use reckoning::rules::limits::MARKET;
use std::io::{self, BufWriter, Write};
use std::path::Path;

const USES: &str = "uses:
  bench calls
  bench listings --listing PATH --folder PATH
  bench list < FEED";

/// The reckoning's listing, built by this program's profile.
fn list() -> io::Result<()> {
    let mut out = BufWriter::with_capacity(1 << 16, io::stdout().lock());
    reckoning::programs::listing::list(MARKET, io::stdin().lock(), &mut out)?;
    out.flush()
}

/// Calls of the library.
fn calls() -> io::Result<()> {
    proportions::measure();
    months::measure();
    Ok(())
}

fn main() -> io::Result<()> {
    let words: Vec<String> = std::env::args().skip(1).collect();
    let words: Vec<&str> = words.iter().map(String::as_str).collect();
    match words[..] {
        ["calls"] => calls(),
        ["listings", "--listing", listing, "--folder", folder] => {
            listings::measure(Path::new(listing), Path::new(folder))
        }
        ["list"] => list(),
        _ => Err(io::Error::other(USES)),
    }
}
