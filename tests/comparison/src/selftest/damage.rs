//! Shows that the comparison works: right outputs are damaged, and each damage must be reported.

use crate::cases::feeds as examples;
use crate::generate::feeds;
use crate::judge::{demand3, judge_listing, judge_trial};
use crate::pairs;
use crate::selftest::Told;
use crate::trials;
use crate::Named;
use reckoning::programs::listing::listing_within;
use reckoning::programs::trial;
use reckoning::rules::limits::{Limits, DEMONSTRATION, MARKET};

/// A line by its words. After the end of the last line of an output stands an empty one.
type Line = Vec<String>;

/// Whether the line at a place fits, and what changes it.
type Fits = fn(&[Line], usize) -> bool;
type Change = fn(&mut Vec<Line>, usize);

/// Changes the last line of an output that fits.
struct Damage {
    name: &'static str,
    fits: Fits,
    change: Change,
    /// Whether demand 3 alone, without the reckoned text, must show it too.
    by_demand_3: bool,
}

/// A damage that the reckoned text and demand 3 alone must each show.
const fn both(name: &'static str, fits: Fits, change: Change) -> Damage {
    Damage { name, fits, change, by_demand_3: true }
}

/// A damage that the reckoned text must show.
const fn by_text(name: &'static str, fits: Fits, change: Change) -> Damage {
    Damage { name, fits, change, by_demand_3: false }
}

fn is_entry(lines: &[Line], at: usize) -> bool {
    lines[at].len() == 4 && lines[at][0] != "entry"
}

/// Whether it is an entry that was answered with one of some numbers.
fn answered(lines: &[Line], at: usize, with: &[&str]) -> bool {
    is_entry(lines, at) && with.contains(&lines[at][1].as_str())
}

/// Whether it is an entry after which more money is held.
fn holds_more(lines: &[Line], at: usize) -> bool {
    let held = |at: usize| lines[at][3].parse::<u64>().expect("a number");
    let before = (0..at).rfind(|&before| is_entry(lines, before));
    is_entry(lines, at) && before.is_some_and(|before| held(before) < held(at))
}

fn is_pay(lines: &[Line], at: usize) -> bool {
    lines[at][0] == "pay"
}

/// Whether it is the second of two payouts of one entry.
fn is_second_pay(lines: &[Line], at: usize) -> bool {
    at > 0 && is_pay(lines, at - 1) && is_pay(lines, at)
}

/// Whether it starts with a word and has one at a place.
fn has(start: &str, lines: &[Line], at: usize, place: usize) -> bool {
    lines[at][0] == start && lines[at].len() > place
}

/// The first payout word that has a cent and one after it, where an entry was accepted.
fn paid_word(line: &Line) -> Option<usize> {
    let accepted = line[0] == "apply" && line[1] == "0";
    (4..line.len().max(5) - 1).find(|&place| accepted && line[place] != "0")
}

fn add(lines: &mut [Line], at: usize, place: usize, more: i64) {
    let number: i64 = lines[at][place].parse().expect("a number");
    lines[at][place] = (number + more).to_string();
}

/// Adds to the number at a place.
fn raise<const PLACE: usize>(lines: &mut Vec<Line>, at: usize) {
    add(lines, at, PLACE, 1);
}

fn lose(lines: &mut Vec<Line>, at: usize) {
    lines.remove(at);
}

fn accept(lines: &mut Vec<Line>, at: usize) {
    lines[at][1..3].fill("0".into());
}

fn swap_cents(lines: &mut Vec<Line>, at: usize) {
    let cents = lines[at][2].clone();
    lines[at][2] = std::mem::replace(&mut lines[at - 1][2], cents);
}

/// Moves a cent from a word to another.
fn move_a_cent(lines: &mut [Line], from: (usize, usize), to: (usize, usize)) {
    add(lines, from.0, from.1, -1);
    add(lines, to.0, to.1, 1);
}

const OF_LISTING: [Damage; 18] = [
    both("a payout changed by a cent", is_pay, raise::<2>),
    both("a payout given to the next participant", is_pay, raise::<1>),
    both(
        "two payouts swapped",
        |l, at| is_second_pay(l, at) && l[at - 1][2] != l[at][2],
        swap_cents,
    ),
    both("a cent moved between two payouts", is_second_pay, |l, at| {
        move_a_cent(l, (at - 1, 2), (at, 2))
    }),
    both("an entry's line lost", is_entry, lose),
    both("a payout's line lost", is_pay, lose),
    both("held changed", is_entry, raise::<3>),
    both("paid changed", is_entry, raise::<2>),
    by_text(
        "an accepted entry refused",
        |l, at| answered(l, at, &["0"]) && l[at][2] == "0" && l[at][3] != "0",
        raise::<1>,
    ),
    by_text("a refusal changed to another", |l, at| answered(l, at, &["8"]), raise::<1>),
    both("money that came in refused", holds_more, |l, at| add(l, at, 1, 15)),
    both("money that was refused accepted", |l, at| answered(l, at, &["13", "14", "15"]), accept),
    both("a washup that was refused accepted", |l, at| answered(l, at, &["16"]), accept),
    by_text("an opening that was refused with 7 accepted", |l, at| answered(l, at, &["7"]), accept),
    both("an entry's number changed", is_entry, raise::<0>),
    both("the header lost", |_, at| at == 0, lose),
    by_text("the last end of line lost", |_, _| true, lose),
    by_text("a line too many", |_, _| true, |l, _| l.push(vec![String::new()])),
];

const OF_TRIAL: [Damage; 9] = [
    by_text("a book's answer changed", |l, at| has("book", l, at, 1), raise::<1>),
    by_text("an answer changed", |l, at| has("apply", l, at, 1), raise::<1>),
    by_text("the rounds changed", |l, at| has("apply", l, at, 2), raise::<2>),
    by_text("held changed", |l, at| has("apply", l, at, 3), raise::<3>),
    by_text("a payout word changed", |l, at| has("apply", l, at, 4), raise::<4>),
    by_text(
        "a cent moved between two payout words",
        |l, at| paid_word(&l[at]).is_some(),
        |l, at| {
            let place = paid_word(&l[at]).expect("it fits");
            move_a_cent(l, (at, place), (at, place + 1));
        },
    ),
    by_text("a field read changed", |l, at| has("read", l, at, 4) && l[at][1] == "0", raise::<4>),
    by_text("a lent byte changed", |l, at| has("write", l, at, 3), raise::<3>),
    by_text("a line lost", |l, at| at + 2 == l.len(), lose),
];

impl Damage {
    /// The damaged output; nothing if there was nothing to damage.
    fn made(&self, right: &[u8]) -> Option<Vec<u8>> {
        let text = std::str::from_utf8(right).expect("text");
        let words = |line: &str| line.split(' ').map(String::from).collect();
        let mut lines: Vec<Line> = text.split('\n').map(words).collect();
        let at = (0..lines.len()).rfind(|&at| (self.fits)(&lines, at))?;
        (self.change)(&mut lines, at);
        let lines: Vec<String> = lines.iter().map(|words| words.join(" ")).collect();
        Some(lines.join("\n").into_bytes())
    }
}

/// What an input is put to: a listing in a book of some limits, an example's, which demand 3 judges
/// alone too, or a trial.
enum Put {
    Listing(Limits),
    Example(Limits),
    Trial,
}

impl Put {
    fn output(&self, input: &[u8]) -> Vec<u8> {
        match *self {
            Put::Listing(limits) | Put::Example(limits) => listing_within(limits, input),
            Put::Trial => trial::expected(input),
        }
    }

    fn judge(&self, input: &[u8], found: &[u8]) -> Option<String> {
        match *self {
            Put::Listing(limits) | Put::Example(limits) => {
                judge_listing(limits, input, found, &mut ()).err()
            }
            Put::Trial => judge_trial(input, found, &mut ()).err(),
        }
    }
}

/// Damages right outputs; true if they stand and each damage was made.
fn damage_all(told: &mut Told, damages: &[Damage], inputs: Vec<(Named, Put)>) -> bool {
    let (mut right_stands, mut made) = (true, vec![0; damages.len()]);
    for ((name, input), put) in inputs {
        let right = put.output(&input);
        right_stands &= put.judge(&input, &right).is_none();
        for (damage, made) in damages.iter().zip(&mut made) {
            let Some(found) = damage.made(&right) else {
                continue;
            };
            *made += 1;
            let name = format!("{name}: {}", damage.name);
            told.take(&name, put.judge(&input, &found));
            if let (Put::Example(limits), true) = (&put, damage.by_demand_3) {
                let judged = demand3::check_within(*limits, &input, &found);
                told.take(&format!("{name}, by demand 3"), judged.err());
            }
        }
    }
    right_stands && made.iter().all(|&count| count > 0)
}

/// Examples, and feeds whose last months were settled and paid; some of each in a demonstration book.
fn listings() -> Vec<(Named, Put)> {
    let of_market = ["month-a", "purse", "washup"].map(|name| (name, MARKET));
    let of_class = ["class", "class-limits"].map(|name| (name, DEMONSTRATION));
    let examples = of_market.into_iter().chain(of_class).map(|(name, limits)| {
        let feed = examples::example(name).expect("a name that exists");
        ((format!("listing of {name}"), feed), Put::Example(limits))
    });
    let few = [(2, "few"), (5, "hundreds"), (3, "millions"), (1, "wide"), (1, "full")];
    let of_requests = [(1, "purses"), (4, "purses"), (1, "washups"), (2, "washups")];
    let of_market = few.into_iter().chain(of_requests).chain([(1, "leftovers")]);
    let of_market = of_market.map(|chosen| (MARKET, "", chosen));
    let of_class = [1, 2].map(|seed| (DEMONSTRATION, " of a demonstration", (seed, "full")));
    let from_seeds = of_market.chain(of_class).map(|(limits, of, (seed, kind))| {
        let feed = feeds::feed_within(limits, seed, kind).expect("a kind that exists");
        ((format!("listing of {kind} {seed}{of}"), feed), Put::Listing(limits))
    });
    examples.chain(from_seeds).collect()
}

fn trials() -> Vec<(Named, Put)> {
    let from_seeds = (0..6).map(|seed| (format!("seed {seed}"), trials::trial(seed)));
    let of_groups = (0..3)
        .map(|seed| (format!("of groups seed {seed}"), trials::groups::trial_of_groups(seed)));
    let pairs = pairs::pairs().into_iter().take(6);
    let all = from_seeds.chain(of_groups);
    let requests = ['c', 'e', 'f', 'g'].into_iter();
    let all = all.chain(requests.flat_map(|request| trials::of(request).into_iter().take(3)));
    let all = all.chain(pairs.map(|pair| (format!("pair of {}", pair.of), pair.both)));
    all.map(|(name, calls)| ((format!("trial {name}"), calls), Put::Trial)).collect()
}

/// Damages listings and trials; true only if each damage was made and told, and nothing right was.
pub fn damage(details: bool) -> bool {
    let mut told = Told::new("damaged outputs", details);
    let listings = damage_all(&mut told, &OF_LISTING, listings());
    if !(damage_all(&mut told, &OF_TRIAL, trials()) && listings) {
        told.part.problem("a right output was told, or a damage was never made");
    }
    told.end()
}
