//! The comparison as a program; without a right word it prints its uses.

use comparison::cases::feeds as examples;
use comparison::compare::{compare, Programs};
use comparison::generate::feeds;
use comparison::malformed::malformed;
use comparison::pairs;
use comparison::selftest::selftest;
use comparison::soak::{soak, Plan};
use reckoning::rules::limits::{Limits, DEMONSTRATION, MARKET};
use std::io::{self, BufWriter, Write};
use std::process::ExitCode;

const USES: &str = "uses, each with --details at the end for all that was counted:
  comparison selftest
  comparison compare --listing PATH --trial PATH --demonstration PATH
  comparison soak --listing|--demonstration PATH --n N --entries COUNT --months COUNT
  comparison malformed --listing PATH --demonstration PATH --feeds COUNT
uses without details:
  comparison feed SEED KIND > FEED
  comparison example NAME > FEED
  comparison pairs
names of examples and kinds of feed:";

fn status(right: bool) -> ExitCode {
    if right {
        ExitCode::SUCCESS
    } else {
        ExitCode::FAILURE
    }
}

fn print_uses() -> ExitCode {
    let kinds: Vec<&str> = feeds::KINDS.iter().map(|kind| kind.name).collect();
    eprintln!("{USES}\n  {}\n  {}", examples::NAMES.join(" "), kinds.join(" "));
    ExitCode::FAILURE
}

/// Writes to standard output in blocks.
fn print(text: impl FnOnce(&mut BufWriter<io::Stdout>) -> io::Result<()>) -> ExitCode {
    let mut out = BufWriter::with_capacity(1 << 16, io::stdout());
    let result = text(&mut out).and_then(|()| out.flush());
    if let Err(error) = &result {
        eprintln!("comparison: {error}");
    }
    status(result.is_ok())
}

fn print_feed(seed: &str, kind: &str) -> ExitCode {
    let seed = seed.parse().ok();
    match seed.and_then(|seed| feeds::feed(seed, kind)) {
        Some(feed) => print(|out| out.write_all(&feed)),
        None => print_uses(),
    }
}

fn print_example(name: &str) -> ExitCode {
    match examples::example(name) {
        Some(feed) => print(|out| out.write_all(&feed)),
        None => print_uses(),
    }
}

/// The pairs of refusals that the comparison puts as trials.
fn print_pairs(out: &mut impl Write) -> io::Result<()> {
    for pair in pairs::pairs() {
        writeln!(out, "{}: {} before {}", pair.of, pair.earlier, pair.later)?;
    }
    Ok(())
}

/// The limits of the book that a program makes, by the option that names it.
fn limits_of(option: &str) -> Option<Limits> {
    match option {
        "--listing" => Some(MARKET),
        "--demonstration" => Some(DEMONSTRATION),
        _ => None,
    }
}

fn run_soak(limits: Limits, path: &str, numbers: [&str; 3], details: bool) -> ExitCode {
    let [n, entries, months] = numbers;
    match (n.parse(), entries.parse(), months.parse()) {
        (Ok(n), Ok(entries), Ok(months)) => {
            status(soak(path, Plan { limits, n, entries, months }, details))
        }
        _ => print_uses(),
    }
}

fn main() -> ExitCode {
    let words: Vec<String> = std::env::args().skip(1).collect();
    let mut words: Vec<&str> = words.iter().map(String::as_str).collect();
    let details = words.pop_if(|last| *last == "--details").is_some();
    match words[..] {
        ["compare", "--listing", listing, "--trial", trial, "--demonstration", demonstration] => {
            status(compare(&Programs { listing, trial, demonstration }, details))
        }
        ["soak", book, path, "--n", n, "--entries", entries, "--months", months] => {
            match limits_of(book) {
                Some(limits) => run_soak(limits, path, [n, entries, months], details),
                None => print_uses(),
            }
        }
        ["malformed", "--listing", listing, "--demonstration", demonstration, "--feeds", feeds] => {
            match feeds.parse() {
                Ok(feeds) => status(malformed(listing, demonstration, feeds, details)),
                Err(_) => print_uses(),
            }
        }
        ["selftest"] => status(selftest(details)),
        ["pairs"] => print(print_pairs),
        ["feed", seed, kind] => print_feed(seed, kind),
        ["example", name] => print_example(name),
        _ => print_uses(),
    }
}
