//! Prints what the listing, the demonstration and the trial program print, by the reckoning; without a right
//! word it prints its uses.

use reckoning::programs::{listing, trial};
use reckoning::rules::limits::{DEMONSTRATION, MARKET};
use std::io::{self, BufReader, BufWriter, Write};
use std::process::ExitCode;

const USES: &str = "uses:
  reckoning listing < FEED
  reckoning demonstration < FEED
  reckoning trial < CALLS";

fn main() -> ExitCode {
    let words: Vec<String> = std::env::args().skip(1).collect();
    let words: Vec<&str> = words.iter().map(String::as_str).collect();
    let mut out = BufWriter::with_capacity(1 << 16, io::stdout());
    let printed = match words[..] {
        ["listing"] => listing::list(MARKET, io::stdin(), &mut out),
        ["demonstration"] => listing::list(DEMONSTRATION, io::stdin(), &mut out),
        ["trial"] => trial::run(BufReader::new(io::stdin()), &mut out),
        _ => Err(io::Error::other(USES)),
    };
    match printed.and_then(|()| out.flush()) {
        Ok(()) => ExitCode::SUCCESS,
        Err(error) => {
            eprintln!("{error}");
            ExitCode::FAILURE
        }
    }
}
