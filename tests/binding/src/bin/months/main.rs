//! Random months and proportions through the clearing book's static library, compared with the reckoning
//! cell by cell.

mod compare;
mod proportions;
mod refused;
mod refused_groups;

use binding::arguments::Rest;
use compare::Count;
use comparison::coverage::Place;
use comparison::generate::months;
use comparison::report::{grouped, Part};
use std::process::ExitCode;

/// Months of each of the two kinds: of random n, and of each n from 1 to 64 in turn.
const MONTHS: u64 = 20_000;

fn compare(details: bool) -> bool {
    let (mut part, mut count) = (Part::new("months", details), Count::default());
    for seed in 0..MONTHS {
        let rest = if seed % 2 == 0 { Rest::Zero } else { Rest::Most };
        count.month(&format!("seed {seed}"), &months::month(seed), rest);
        let n = (seed / 2 % 64 + 1) as usize;
        let name = format!("seed {seed}, n {n}");
        count.month(&name, &months::month_in(!seed, months::any_making(!seed, n)), rest);
        part.done();
    }
    let (refusals, proportions) = (count.refusals(), count.proportions());
    count.differences.iter().for_each(|difference| part.problem(difference));
    part.require(Place::Months, &count.seen);
    part.require_that(count.with_rounds > 0 && count.late > 0, "rounds and late receipts");
    part.end(&format!(
        "{} months ({} with rounds), {} late receipts, {} cells, {refusals} sets of arguments about \
         the refusals, {} proportions",
        grouped(count.months),
        grouped(count.with_rounds),
        grouped(count.late),
        grouped(count.cells),
        grouped(proportions)
    ))
}

fn main() -> ExitCode {
    let words: Vec<String> = std::env::args().skip(1).collect();
    let words: Vec<&str> = words.iter().map(String::as_str).collect();
    let stands = match words[..] {
        [] => compare(false),
        ["--details"] => compare(true),
        _ => {
            eprintln!("use: months [--details]");
            false
        }
    };
    if stands {
        ExitCode::SUCCESS
    } else {
        ExitCode::FAILURE
    }
}
