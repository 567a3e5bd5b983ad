//! Feeds, months, makings and setups from seeds, aimed by a copy of the reckoning's book.

pub mod aim;
pub mod call_maker;
pub mod energies;
pub mod feeds;
pub mod groupings;
pub mod makings;
pub mod months;
pub mod quantities;
pub mod random;
pub mod rounds;
