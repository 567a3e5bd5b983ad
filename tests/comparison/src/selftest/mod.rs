//! Shows that the tests can fail: damaged outputs and wrong versions of the rules must be told.

mod damage;
pub mod mutants;
mod tries;

use crate::report::{grouped, Part};

/// What was tried, and how much of it was told.
pub struct Told {
    part: Part,
    tried: u64,
    told: u64,
}

impl Told {
    fn new(name: &str, details: bool) -> Told {
        Told { part: Part::new(name, details), tried: 0, told: 0 }
    }

    /// Something wrong was tried; what told it, if anything did.
    fn take(&mut self, name: &str, what: Option<String>) {
        self.tried += 1;
        match what {
            Some(what) => {
                self.told += 1;
                self.part.detail(&format!("  told: {name}: {what}"));
            }
            None => self.part.problem(&format!("NOT TOLD: {name}")),
        }
        self.part.done();
    }

    fn end(mut self) -> bool {
        self.part.require_that(self.tried > 0, "nothing was tried");
        let (told, tried) = (grouped(self.told), grouped(self.tried));
        self.part.end(&format!("{told} of {tried} told"))
    }
}

/// Damages right outputs and tries wrong versions; true only if each was told and no right output was.
pub fn selftest(details: bool) -> bool {
    [
        damage::damage(details),
        tries::try_by_trials(details),
        tries::try_by_demand_3(details),
        tries::try_by_same_payouts(details),
    ]
    .into_iter()
    .all(|all_told| all_told)
}
