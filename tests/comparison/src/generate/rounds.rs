//! Months whose settlement runs many rounds.
//!
//! Participants 0 and 1 owe r × m each and pay nothing; the other m have G in
//! tier 5 each and pay in full. Then each V is G − 2r and each A is r, and
//! participant i, owing G − x, has the scaled amount max(x, r) − 2r. So x of r or
//! less makes a deficit of r, and x of 2r + b makes a balance of b.

use crate::generate::random::Random;
use reckoning::rules::book::{Book, MOST_TOTAL};
use reckoning::rules::codec::Entry;
use reckoning::rules::month::Sums;

/// All balances but the last, which is large: about one is spent in each round,
/// and the others just not.
fn balances(random: &mut Random, deficit: u64, count: u64) -> Vec<u64> {
    let (mut deficit, mut lost) = (deficit, 0);
    let mut balances = Vec::new();
    for left in (2..=count).rev() {
        let share = deficit.div_ceil(left);
        let missing = random.between(share / 2, share);
        balances.push((lost + share - missing).max(1));
        lost += share;
        deficit = (deficit + missing).saturating_sub(left * share);
    }
    balances
}

/// x of each of m participants; they sum up to 2 × r × m.
fn every_x(random: &mut Random, m: u64, r: u64) -> Vec<u64> {
    let with_balance = random.between(1, m - 1);
    let with_deficit = m - with_balance;
    let mut every: Vec<u64> = (0..with_deficit).map(|_| random.between(0, r)).collect();
    every[0] = 0;
    let mut left: u64 = every.iter().map(|x| 2 * r - x).sum();
    for balance in balances(random, with_deficit * r, with_balance) {
        let balance = balance.min(left);
        every.push(2 * r + balance);
        left -= balance;
    }
    every.push(2 * r + left);
    every
}

/// The amounts of such a month with n of 4 or more.
fn amounts(random: &mut Random, n: u64, period: u32) -> Vec<Entry> {
    let m = n - 2;
    let most = MOST_TOTAL as u64 / (4 * m * m);
    let r = random.pick(&[7, 50, 1_000, most]);
    let g = 4 * r * m;
    let mut entries =
        vec![Entry::amount(period, 0, 0, 0, r * m), Entry::amount(period, 1, 0, 0, r * m)];
    for (place, x) in every_x(random, m, r).into_iter().enumerate() {
        let participant = place as u8 + 2;
        entries.push(Entry::amount(period, participant, 0, 0, g - x));
        entries.push(Entry::amount(period, participant, 1, 5, g));
    }
    entries
}

/// The sums of such a month.
pub fn sums(random: &mut Random, n: usize) -> Sums {
    let mut sums = Sums::new(n);
    for entry in amounts(random, n as u64, 0) {
        sums.add(entry.participant.into(), entry.side, entry.tier.into(), entry.cents.into());
    }
    sums
}

/// Applies entries to the book and adds them to the month's.
fn take(book: &mut Book, month: &mut Vec<Entry>, entries: Vec<Entry>) {
    for entry in entries {
        book.apply(&entry, &mut [0; 64]);
        month.push(entry);
    }
}

/// The whole month, from its opening to its last late receipt. Some payers send their money to
/// their purse, which is empty before and after.
pub fn month(random: &mut Random, book: &mut Book) -> Vec<Entry> {
    let period = book.highest + 1;
    let mut month = Vec::new();
    take(book, &mut month, vec![Entry::open(period)]);
    take(book, &mut month, amounts(random, book.n as u64, period));
    take(book, &mut month, vec![Entry::notice(period)]);
    for payer in 2..book.n {
        let cents = book.periods.get(&period).map_or(0, |noticed| noticed.most_receipt(payer));
        if cents > 0 {
            let (payer, cents) = (payer as u8, cents as u64);
            let early = random.chance(1, 4).then_some(Entry::purse(payer, cents));
            let receipt = Entry::receipt(period, payer, cents);
            take(book, &mut month, vec![early.unwrap_or(receipt)]);
        }
    }
    take(book, &mut month, vec![Entry::settle(period)]);
    late_receipts(random, book, period, &mut month);
    month
}

/// Payers 0 and 1 pay their arrears in slices.
fn late_receipts(random: &mut Random, book: &mut Book, period: u32, month: &mut Vec<Entry>) {
    let arrears_in = |book: &Book| {
        let settled = book.periods.get(&period);
        [0, 1].map(|payer| settled.map_or(0, |settled| settled.arrears_of(payer) as u64))
    };
    let mut arrears = arrears_in(book);
    while arrears != [0, 0] {
        let payer = usize::from(arrears[0] == 0 || (arrears[1] > 0 && random.chance(1, 2)));
        let part = random.between(1, arrears[payer]);
        let cents = random.pick(&[part, arrears[payer]]);
        take(book, month, vec![Entry::receipt(period, payer as u8, cents)]);
        arrears = arrears_in(book);
    }
}
