//! Lists that a book of some limits accepts throughout give the same payouts in a book whose limits are
//! not below (02, f), of the same n, groups and reserves. What a program prints for both is compared,
//! and nothing else.

use crate::coverage::lists::Lists;
use crate::coverage::{Seen, Watch};
use crate::generate::aim::{Aim, Manner, Scale};
use crate::generate::groupings;
use crate::generate::makings::spoilt::any_limits;
use crate::generate::random::Random;
use crate::judge::first_difference;
use reckoning::programs::calls;
use reckoning::programs::observer::Applied;
use reckoning::rules::book::{Book, Make};
use reckoning::rules::codec::Entry;
use reckoning::rules::limits::{Limits, DEMONSTRATION, MARKET, MOST_PARTICIPANTS, MOST_PERIODS};
use reckoning::rules::making::Making;
use reckoning::rules::refusals::ACCEPTED;

/// How many lists a comparison puts to books of random limits, and how many to both listing programs.
pub const LISTS: u64 = 60;
pub const FEEDS: u64 = 40;
/// One list of so many that are put to books of random limits is of a demonstration book.
const OF_CLASS: u64 = 4;
/// How many entries a list has.
const ENTRIES: usize = 160;

/// A list that the book of a making accepts throughout.
pub struct List {
    pub making: Making,
    /// Not below those of the making.
    pub larger: Limits,
    /// Each entry with the payout words that are lent with it.
    entries: Vec<(Entry, u8)>,
    /// What there is to see in it.
    pub seen: Seen,
}

/// Few cents and no purpose to be refused, so that many months are settled, with late receipts.
fn manner(random: &mut Random, making: &Making) -> Manner {
    let scale = random.pick(&[Scale::Few, Scale::Few, Scale::Hundreds, Scale::Millions]);
    let amounts = making.n.min(6) + 1;
    let periods = making.limits.periods;
    Manner { scale, wrong: 0, periods, amounts, ..Manner::any(random, making.n) }
}

/// n payout words, more, as many as the participant limit, or as many as there can be.
fn any_words(random: &mut Random, making: &Making) -> u8 {
    random.pick(&[making.n, making.n + 2, making.limits.participants, MOST_PARTICIPANTS]) as u8
}

/// The list of a book that is made so, by a making.
fn draw(make: Make, random: Random, making: Making, larger: Limits) -> List {
    let mut random = random;
    let manner = manner(&mut random, &making);
    let mut aim = Aim::new(random, &making, manner);
    aim.book = make(&making).0;
    let (mut entries, mut seen) = (Vec::new(), Seen::default());
    let mut watch = Lists::new(&making, &mut seen);
    while entries.len() < ENTRIES {
        let entry = aim.propose();
        let words = any_words(&mut aim.random, &making);
        let (mut book, mut paid) = (aim.book.clone(), vec![0; words.into()]);
        let answer = book.apply(&entry, &mut paid);
        if answer.number == ACCEPTED {
            watch.before(&aim.book, &entry);
            watch.after(&book, &Applied { entry: &entry, answer, words: &paid }, &mut seen);
            aim.book = book;
            entries.push((entry, words));
        }
    }
    List { making, larger, entries, seen }
}

/// The list for a seed, of random limits, or those of a demonstration book, and random groups and
/// reserves.
pub fn list(seed: u64) -> List {
    list_by(Book::make, seed)
}

/// The same, which a book that is made so accepts throughout.
pub fn list_by(make: Make, seed: u64) -> List {
    let mut random = Random::of(seed, 52);
    let any = any_limits(&mut random);
    let limits = if seed.is_multiple_of(OF_CLASS) { DEMONSTRATION } else { any };
    let most = limits.participants;
    let n = random.between(most.min(2), most.min(8));
    let making = groupings::in_groups_or_alone(&mut random, (3, 4), limits, n);
    let participants = random.between(most, MOST_PARTICIPANTS);
    let periods = random.between(limits.periods, MOST_PERIODS);
    draw(make, random, making, Limits { participants, periods })
}

/// The list for a seed of a demonstration book, as feeds have it.
pub fn list_of_class(seed: u64) -> List {
    let mut random = Random::of(seed, 51);
    let n = random.between(2, DEMONSTRATION.participants);
    draw(Book::make, random, Making::within(DEMONSTRATION, n), MARKET)
}

impl List {
    fn trial(&self, book: Vec<u8>) -> Vec<u8> {
        let entries = self.entries.iter().flat_map(|(entry, words)| calls::apply(entry, *words));
        book.into_iter().chain(entries).collect()
    }

    /// The list in the book that accepts it.
    pub fn in_its_book(&self) -> Vec<u8> {
        self.trial(calls::book_of_limits(&self.making))
    }

    /// In the market's book, and in one of other limits that are not below.
    pub fn in_others(&self) -> [(&'static str, Vec<u8>); 2] {
        let larger = Making { limits: self.larger, ..self.making.clone() };
        [
            ("the market's book", self.trial(calls::book_in_groups(&self.making))),
            ("larger limits", self.trial(calls::book_of_limits(&larger))),
        ]
    }

    pub fn feed(&self) -> Vec<u8> {
        let entries = self.entries.iter().flat_map(|(entry, _)| entry.bytes());
        [self.making.n as u8].into_iter().chain(entries).collect()
    }
}

/// Whether a program accepted a list throughout.
pub fn accepted(printed: &[u8]) -> Result<(), String> {
    let text = String::from_utf8_lossy(printed);
    let mut lines = text.lines();
    if lines.next() != Some("book 0") {
        return Err("the book was refused".into());
    }
    match lines.find(|line| !line.starts_with("apply 0 ")) {
        Some(line) => Err(format!("an entry was not accepted: {line}")),
        None => Ok(()),
    }
}

/// The payout words of each entry, which stand behind `apply`, the answer, the rounds and the cents
/// held. A line for the book comes first.
fn payouts(printed: &[u8]) -> Vec<u8> {
    let text = String::from_utf8_lossy(printed);
    let words = |line: &str| line.split(' ').skip(4).collect::<Vec<_>>().join(" ") + "\n";
    text.lines().skip(1).map(words).collect::<String>().into_bytes()
}

/// Compares the payout words that a program printed for a list in two books, entry by entry.
pub fn same(in_its_book: &[u8], in_another: &[u8]) -> Result<(), String> {
    match first_difference(&payouts(in_its_book), &payouts(in_another)) {
        Some(difference) => Err(format!("other payouts: {difference}")),
        None => Ok(()),
    }
}

/// Whether a list that some lines show to be accepted pays other cents in another book, by the lines
/// that there are for its calls; and which.
pub fn pays_others(lines: impl Fn(&[u8]) -> Vec<u8>, list: &List) -> Option<String> {
    let in_its_book = lines(&list.in_its_book());
    accepted(&in_its_book).ok()?;
    let judged = |(of, calls): &(&str, Vec<u8>)| {
        let told = same(&in_its_book, &lines(calls)).err();
        told.map(|what| format!("{of}: {what}"))
    };
    list.in_others().iter().find_map(judged)
}

#[cfg(test)]
mod tests {
    use super::*;
    use crate::coverage::Place;
    use reckoning::programs::listing::listing_within;
    use reckoning::programs::trial;

    #[test]
    fn each_list_is_accepted_throughout_and_pays_the_same() {
        let mut seen = Seen::default();
        for seed in 0..LISTS {
            let list = list(seed);
            assert_eq!(accepted(&trial::expected(&list.in_its_book())), Ok(()), "seed {seed}");
            assert_eq!(pays_others(trial::expected, &list), None, "seed {seed}");
            seen.add(&list.seen);
        }
        assert_eq!(seen.missing(Place::Lists), [""; 0]);
    }

    #[test]
    fn each_list_of_a_class_is_listed_alike() {
        let mut seen = Seen::default();
        for seed in 0..FEEDS {
            let list = list_of_class(seed);
            let feed = list.feed();
            let [small, large] = [DEMONSTRATION, MARKET].map(|it| listing_within(it, &feed));
            assert_eq!(small, large, "seed {seed}");
            seen.add(&list.seen);
        }
        assert_eq!(seen.missing(Place::ListedLists), [""; 0]);
    }

    /// A line of a trial with something changed.
    fn changed(text: &[u8], from: &str, to: &str) -> Vec<u8> {
        let text = String::from_utf8_lossy(text);
        assert!(text.contains(from));
        text.replacen(from, to, 1).into_bytes()
    }

    #[test]
    fn other_payouts_a_refusal_and_a_lost_line_are_told() {
        let list = list(1);
        let right = trial::expected(&list.in_its_book());
        assert_eq!((accepted(&right), same(&right, &right)), (Ok(()), Ok(())));
        // Rounds and cents held are no payouts.
        assert_eq!(same(&right, &changed(&right, "apply 0 0 ", "apply 0 7 ")), Ok(()));
        let text = String::from_utf8_lossy(&right).into_owned();
        let line = text.lines().nth(5).unwrap();
        let other = format!("{line} 1");
        assert!(same(&right, &changed(&right, line, &other)).is_err());
        assert!(same(&right, &changed(&right, &format!("{line}\n"), "")).is_err());
        assert!(same(&changed(&right, &format!("{line}\n"), ""), &right).is_err());
        assert!(accepted(&changed(&right, "apply 0", "apply 7")).is_err());
        assert!(accepted(&changed(&right, "book 0", "book 4")).is_err());
        assert!(accepted(b"").is_err());
    }
}
