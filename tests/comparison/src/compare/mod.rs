//! Compares three programs with the reckoning on feeds and trials from fixed seeds.

mod handover;
mod inputs;
mod listings;
mod lists;
pub mod program;
pub mod same_payouts;
#[cfg(test)]
mod tests;
mod trials;

use reckoning::rules::limits::{DEMONSTRATION, MARKET};

/// Where the programs are.
#[derive(Clone, Copy)]
pub struct Programs<'a> {
    pub listing: &'a str,
    pub trial: &'a str,
    pub demonstration: &'a str,
}

/// Compares the programs; true only if all agree, and enough was compared.
pub fn compare(programs: &Programs, details: bool) -> bool {
    let &Programs { listing, trial, demonstration } = programs;
    // Each part says what it came to, whether or not one before it failed.
    [
        listings::compare("listings", MARKET, listing, inputs::feeds(), details),
        listings::compare(
            "demonstrations",
            DEMONSTRATION,
            demonstration,
            inputs::demonstrated_feeds(),
            details,
        ),
        trials::compare(trial, inputs::trials(), details),
        lists::compare_trials(trial, details),
        lists::compare_feeds(listing, demonstration, details),
        handover::handover("handover", MARKET, listing, details),
        handover::handover("handover to demonstration", DEMONSTRATION, demonstration, details),
    ]
    .into_iter()
    .all(|stands| stands)
}
