//! What 01's listing program and the trial program print, by the rules.

pub mod calls;
pub mod listing;
pub mod observer;
#[cfg(test)]
mod tests;
pub mod trial;
