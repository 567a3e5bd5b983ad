//! Notice, settlement with rounds and a late receipt of whole months against the reckoning's own.

use crate::batches::{timed, Times};
use binding::arguments::{self, Arguments, Rest, PLACES};
use comparison::coverage::group_kinds::{Reserves, Shape};
use comparison::coverage::leftovers::{By, Sight};
use comparison::coverage::Seen;
use comparison::generate::groupings;
use comparison::generate::months::{self, Month};
use comparison::generate::random::Random;
use reckoning::rules::month::{self, Notice, Settlement};
use std::hint::black_box;

/// Months of as many participants as a book takes.
const MONTHS: usize = 1_000;
/// Months of a batch, which is timed as a whole.
const BATCH: usize = 10;
/// How often all months are gone through.
const PASSES: usize = 7;

/// Asserts that all three exports come to what was reckoned.
fn check(with: &mut Arguments, month: &Month) {
    let holds = |with: &Arguments, rows: &[&[u128]]| {
        for (row, cells) in rows.iter().zip(&with.written) {
            assert_eq!(arguments::difference(row, cells), None);
        }
    };
    let (Notice { retention, payable, .. }, settled) = (&month.notice, &month.settlement);
    assert!(with.notice());
    holds(with, &[retention, payable]);
    assert_eq!(with.settle(), settled.rounds);
    holds(with, &[&settled.paid, &settled.step_one.claim, &settled.step_one.arrears]);
    assert!(with.late());
    holds(with, &[&month.late[0].payments]);
}

#[inline(never)]
fn notice(month: &Month) -> Notice {
    month::notice(&month.sums, &month.making)
}

/// With the notice: the export takes no payable row, and reckons the notice too.
#[inline(never)]
fn settle(month: &Month) -> Settlement {
    month::settle(&month.sums, &month::notice(&month.sums, &month.making), &month.received)
}

#[inline(never)]
fn late(month: &Month) -> Vec<u128> {
    let Settlement { step_one, paid, .. } = &month.settlement;
    let shortages = month::shortages(&month.sums, &step_one.claim, paid);
    month::late_payments(&shortages, month.late[0].money)
}

fn compare<O, T>(
    name: &str,
    months: &[Month],
    lent: &mut [Arguments],
    ours: impl Fn(&mut Arguments) -> O,
    theirs: impl Fn(&Month) -> T,
) {
    let mut times = Times::default();
    for _ in 0..PASSES {
        for (some, rows) in months.chunks(BATCH).zip(lent.chunks_mut(BATCH)) {
            times.take(
                || timed(|| rows.iter_mut().for_each(|row| _ = black_box(ours(row)))),
                || timed(|| some.iter().for_each(|month| _ = black_box(theirs(month)))),
            );
        }
    }
    times.print(name, BATCH);
}

/// A month of groups of random sizes, each with a reserve of any size.
fn month_in_groups(seed: u64) -> Month {
    let (mut random, n) = (Random::new(seed), PLACES as u64);
    let making = groupings::making(&mut random, n, Shape::Sizes, Reserves::Mixed);
    months::month_in(seed, making)
}

/// The first months that fit, as both take them; what ours comes to in each is asserted.
fn checked(
    month: impl Fn(u64) -> Month,
    fits: impl Fn(&Month) -> bool,
) -> (Vec<Month>, Vec<Arguments>) {
    let months: Vec<Month> = (0..).map(month).filter(fits).take(MONTHS).collect();
    let mut rows: Vec<Arguments> =
        months.iter().map(|month| Arguments::of(month, Rest::Zero)).collect();
    rows.iter_mut().zip(&months).for_each(|(row, month)| check(row, month));
    (months, rows)
}

/// Prints in how many months a settlement, and the first late receipt, share a tier with leftover cents
/// (02, g).
fn print_leftovers(months: &[Month]) {
    let mut seen = Seen::default();
    for month in months {
        seen.see_shared(By::Settlement, &month.sums.to, month.available);
        seen.see_shared(By::LateReceipt, &month.late[0].shortages, month.late[0].money);
    }
    let [one, more] = [Sight::OneCent, Sight::MoreCents].map(|sight| seen.by_column(sight));
    println!(
        "of {} months, a tier is shared with leftover cents in {} settlements and {} late receipts",
        months.len(),
        one[0] + more[0],
        one[1] + more[1]
    );
}

pub fn measure() {
    let comes_late = |month: &Month| !month.late.is_empty();
    let with_rounds = |month: &Month| month.settlement.rounds > 0 && comes_late(month);
    let (months, mut rows) = checked(|seed| months::month_of(seed, PLACES), with_rounds);
    print_leftovers(&months);
    compare("notice", &months, &mut rows, Arguments::notice, notice);
    compare("notice and settlement with rounds", &months, &mut rows, Arguments::settle, settle);
    compare("late receipt", &months, &mut rows, Arguments::late, late);
    let (months, mut rows) = checked(month_in_groups, comes_late);
    let name = "notice, groups of random sizes and reserves";
    compare(name, &months, &mut rows, Arguments::notice, notice);
}
