//! What the programs are compared on: cases by hand, and feeds and trials from fixed seeds.

use crate::cases::{self, feeds as examples};
use crate::generate::feeds::{self, Kind, KINDS};
use crate::pairs;
use crate::trials;
use crate::Named;
use reckoning::rules::limits::{Limits, DEMONSTRATION, MARKET};

/// One feed of so many of each kind is aimed by a demonstration book.
const DEMONSTRATED: u64 = 3;
/// And so many of each kind, aimed by the market's book, are put to it too, where they are short: many of
/// their entries are refused.
const OF_MARKET: u64 = 2;
const SHORT: u64 = 10_000;

/// An input that is made when it is wanted.
pub struct Input {
    pub name: String,
    make: Box<dyn Fn() -> Vec<u8> + Send + Sync>,
}

impl Input {
    fn new(name: String, make: impl Fn() -> Vec<u8> + Send + Sync + 'static) -> Input {
        Input { name, make: Box::new(make) }
    }

    pub fn bytes(&self) -> Vec<u8> {
        (self.make)()
    }
}

impl From<Named> for Input {
    fn from((name, bytes): Named) -> Input {
        Input::new(name, move || bytes.clone())
    }
}

fn from_seed(limits: Limits, kind: &'static Kind, seed: u64, of: &str) -> Input {
    Input::new(format!("feed {of}{} seed {seed}", kind.name), move || {
        feeds::feed_within(limits, seed, kind.name).expect("a kind that exists")
    })
}

/// The feed of which a block gives more output than the listing lets wait.
pub const WAITING_OUTPUT: &str = "feed waiting output";

/// The files of feeds/ and that feed, which are put to both books, and the cases for a book of some limits.
fn by_hand(limits: Limits) -> impl Iterator<Item = Input> {
    let example = |name: &str| examples::example(name).expect("a name that exists");
    let files = examples::NAMES.map(|name| (format!("feed {name}"), example(name)));
    let waiting = (WAITING_OUTPUT.into(), feeds::waiting_output());
    let cases = cases::as_feeds(cases::every(), limits);
    files.into_iter().chain([waiting]).chain(cases).map(Input::from)
}

/// The feeds of the listing.
pub fn feeds() -> Vec<Input> {
    let cut = feeds::month_a_cut().into_iter().enumerate();
    let cut = cut.map(|(count, feed)| (format!("feed month-a cut after {count}"), feed).into());
    let from_seeds =
        KINDS.iter().flat_map(|kind| (0..kind.feeds).map(|seed| from_seed(MARKET, kind, seed, "")));
    cut.chain(from_seeds).chain(by_hand(MARKET)).collect()
}

/// The feeds of the demonstration: aimed by its own book, and some by the market's, whose n or whose
/// periods pass its limits.
pub fn demonstrated_feeds() -> Vec<Input> {
    let own = KINDS.iter().flat_map(|kind| {
        let seeds = 0..kind.feeds.div_ceil(DEMONSTRATED);
        seeds.map(|seed| from_seed(DEMONSTRATION, kind, seed, ""))
    });
    let short = KINDS.iter().filter(|kind| kind.entries < SHORT);
    let of_market = short.flat_map(|kind| {
        (0..OF_MARKET).map(|seed| from_seed(MARKET, kind, seed, "of the market "))
    });
    own.chain(of_market).chain(by_hand(DEMONSTRATION)).collect()
}

/// Every trial: pairs of refusals, those of every sort, and those of each request.
pub fn trials() -> Vec<Input> {
    let empty = Input::from(("trial empty".into(), vec![]));
    let pairs = pairs::pairs().into_iter().enumerate().map(|(place, pair)| {
        let name = format!("trial pair {place} {} {} with {}", pair.of, pair.earlier, pair.later);
        Input::from((name, [&pair.both[..], &pair.alone].concat()))
    });
    let others = trials::of_every_sort().into_iter().chain(trials::of_requests());
    [empty].into_iter().chain(pairs).chain(others.map(Input::from)).collect()
}
