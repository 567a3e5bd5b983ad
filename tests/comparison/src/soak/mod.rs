//! A long feed, listed by a program and by the reckoning at the same time.

mod early_money;
mod filling;
mod memory;
mod plan;
mod rotation;
mod streams;
#[cfg(test)]
mod tests;

pub use plan::Plan;

use crate::compare::program::{self, Printed};
use crate::coverage::Place;
use crate::report::{grouped, Part};
use memory::Memory;
use rotation::{Reach, Rotation};
use std::io;
use streams::Compared;

const SEED: u64 = 400;

/// Runs the program at a path against the reckoning. Its memory is measured from a tenth of the feed on.
fn run(
    path: &str,
    plan: Plan,
    part: &Part,
    memory: &mut Memory,
) -> Result<(Reach, Compared), String> {
    let pipe = || io::pipe().map_err(|error| error.to_string());
    let ((input, to_program), (from_program, output)) = (pipe()?, pipe()?);
    let streams = (input.into(), output.into());
    let (soaked, errors) = program::run_beside(path, streams, |process, goes_on| {
        streams::hold(Rotation::new(plan, SEED), to_program, from_program, |so_far| {
            if so_far.entries() >= plan.entries / 10 {
                memory.take(process);
            }
            goes_on.send(()).ok();
            part.done();
        })
    })?;
    Printed { errors, ..Printed::default() }.without_errors().map(|_| soaked)
}

/// Requires that the feed had all that it is meant to have.
fn require(part: &mut Part, plan: &Plan, reach: &Reach) {
    let count = &reach.count;
    part.require(Place::Soak(plan.n), &reach.seen);
    part.require_that(reach.months_opened == plan.months, "months opened");
    part.require_that(reach.most_periods == plan.limits.periods, "periods at once");
    for (times, what) in [
        (count.settled_months.saturating_sub(count.months_with_arrears), "months without arrears"),
        (count.months_with_arrears, "months with arrears"),
        (count.months_left, "months that left"),
        (count.late_receipts, "late receipts"),
    ] {
        part.require_that(times > 0, what);
    }
}

fn judge(part: &mut Part, plan: &Plan, (reach, compared): &(Reach, Compared)) -> String {
    require(part, plan, reach);
    let listed = compared.entries();
    part.require_that(listed == reach.entries, &format!("{listed} entries have a line"));
    format!(
        "{} entries, {} settled months ({} with arrears), {} late receipts, {} lines",
        grouped(reach.entries),
        grouped(reach.count.settled_months),
        grouped(reach.count.months_with_arrears),
        grouped(reach.count.late_receipts),
        grouped(compared.lines)
    )
}

/// Holds the program at a path, whose book has the plan's limits, to the reckoning over a long feed;
/// true only if all agrees.
pub fn soak(path: &str, plan: Plan, details: bool) -> bool {
    let name = format!("soak of n {}, at most {} periods", plan.n, plan.limits.periods);
    let (mut part, mut memory) = (Part::new(&name, details), Memory::default());
    let soaked = run(path, plan, &part, &mut memory);
    let (first, last) = part.take("memory", memory.judge()).unwrap_or_default();
    part.detail(&format!("  memory: {first} KiB at a tenth of the feed, {last} KiB at its end"));
    let came_to = match part.take("listing", soaked) {
        Some(soaked) => judge(&mut part, &plan, &soaked),
        None => "cut short".into(),
    };
    part.end(&format!("{came_to}, {} KiB of memory", grouped(last)))
}
