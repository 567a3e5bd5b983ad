//! Holds the clearing book's programs to the reckoning, over cases reckoned by hand and over feeds and
//! trials from fixed seeds.

pub mod cases;
pub mod compare;
pub mod coverage;
pub mod generate;
pub mod judge;
pub mod malformed;
pub mod pairs;
#[cfg(test)]
mod properties;
pub mod report;
pub mod selftest;
pub mod soak;
pub mod trials;
mod workers;

/// The name and the bytes of a feed, or of a trial's calls.
pub type Named = (String, Vec<u8>);
