//! The listing against the reckoning's, each as a process of its own on the same feeds, and
//! against itself where it refuses.

use crate::batches::Times;
use crate::feed::{self, Feed};
use crate::processor::spent;
use crate::refused::{self, Alike};
use reckoning::rules::codec::Entry;
use std::fs::{self, File};
use std::io;
use std::path::{Path, PathBuf};
use std::process::{Command, Stdio};
use std::time::{Duration, Instant};

/// How often each program lists each feed to each output: three times, and on to seven within a minute.
const FEWEST: usize = 3;
const MOST: usize = 7;
const ENOUGH: Duration = Duration::from_secs(60);

const NOTHING: &str = "/dev/null";

/// What lists a feed: the proved listing, and this program with the word `list`.
struct Programs {
    ours: PathBuf,
    theirs: PathBuf,
}

fn list(program: &mut Command, feed: &Path, output: &Path) -> io::Result<()> {
    program.stdin(File::open(feed)?).stdout(Stdio::from(File::create(output)?));
    let status = program.status()?;
    assert!(status.success(), "{program:?} ended with {status}");
    Ok(())
}

impl Programs {
    fn ours(&self, feed: &Path, output: &Path) {
        list(&mut Command::new(&self.ours), feed, output).expect("the listing runs");
    }

    fn theirs(&self, feed: &Path, output: &Path) {
        list(Command::new(&self.theirs).arg("list"), feed, output).expect("the reckoning runs");
    }

    /// That both list the feed alike, byte for byte.
    fn check(&self, feed: &Path, folder: &Path) -> io::Result<()> {
        let [a, b] = ["ours", "theirs"].map(|name| folder.join(name));
        self.ours(feed, &a);
        self.theirs(feed, &b);
        assert!(fs::read(&a)? == fs::read(&b)?, "the listings of {feed:?} differ");
        Ok(())
    }

    fn compare(&self, name: &str, entries: usize, feed: &Path, output: &Path) {
        in_turn(name, entries, || self.ours(feed, output), || self.theirs(feed, output));
    }

    /// Ours on one feed against ours on another of as many entries.
    fn compare_ours(&self, name: &str, entries: usize, feeds: [&Path; 2]) {
        let [one, other] = feeds.map(|feed| || self.ours(feed, Path::new(NOTHING)));
        in_turn(name, entries, one, other);
    }
}

/// Times two runs in turn, and prints the ratio of the first to the second.
fn in_turn(name: &str, entries: usize, one: impl Fn(), other: impl Fn()) {
    let (start, mut times) = (Instant::now(), Times::default());
    for turn in 0..MOST {
        if turn >= FEWEST && start.elapsed() > ENOUGH {
            break;
        }
        times.take(|| spent(&one), || spent(&other));
    }
    times.print(name, entries);
}

fn print_reach(name: &str, entries: &[Entry]) {
    let tenths = 10.0 * feed::added(entries) as f64 / entries.len() as f64;
    println!("{name}: {} entries, {tenths:.2} in ten are energy or amounts", entries.len());
}

/// Feed A names the next period with each entry; feed B has the same entries by period.
fn periods(programs: &Programs, folder: &Path) -> io::Result<()> {
    let mut entries = Feed::make().entries;
    for (name, file) in [("feed A, in rotation", "a.feed"), ("feed B, by period", "b.feed")] {
        print_reach(name, &entries);
        let (feed, count) = (folder.join(file), entries.len());
        fs::write(&feed, feed::bytes(feed::N, &entries))?;
        programs.check(&feed, folder)?;
        let name = format!("listing, {name}");
        programs.compare(&format!("{name}, to a file"), count, &feed, &folder.join("out"));
        programs.compare(&format!("{name}, to nothing"), count, &feed, Path::new(NOTHING));
        // Entries of one period keep their order.
        entries.sort_by_key(|entry| entry.period);
    }
    Ok(())
}

/// Writes a part of feed C, and compares the listings of it.
fn one_answer(programs: &Programs, feed: &Alike, file: &Path, folder: &Path) -> io::Result<()> {
    fs::write(file, feed::bytes(feed.n, &feed.entries))?;
    programs.check(file, folder)?;
    let name = format!("listing, feed C, {}", feed.name);
    programs.compare(&name, feed.entries.len(), file, Path::new(NOTHING));
    Ok(())
}

/// Each part of feed C has one answer; a refusal is also measured against accepted amounts.
fn answers(programs: &Programs, folder: &Path) -> io::Result<()> {
    let [accepted, file] = ["accepted.feed", "refused.feed"].map(|name| folder.join(name));
    one_answer(programs, &refused::accepted(), &accepted, folder)?;
    for make in refused::REFUSED {
        let feed = make();
        one_answer(programs, &feed, &file, folder)?;
        let name = format!("ours, feed C, {} / accepted", feed.name);
        programs.compare_ours(&name, feed.entries.len(), [&file, &accepted]);
    }
    Ok(())
}

pub fn measure(listing: &Path, folder: &Path) -> io::Result<()> {
    let programs = Programs { ours: listing.to_path_buf(), theirs: std::env::current_exe()? };
    periods(&programs, folder)?;
    answers(&programs, folder)
}
