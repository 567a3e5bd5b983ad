//! The rules alone, written from 01 and 02. Nothing here imports the programs or the comparison.

pub mod addition;
pub mod book;
pub mod codec;
pub mod limits;
pub mod making;
pub mod month;
pub mod month_a;
pub mod period;
pub mod purse;
pub mod readings;
pub mod refusals;
pub mod retention;
pub mod sharing;
#[cfg(test)]
mod tests;
pub mod washup;
