//! A reckoning of 01, with requests a to g of 02, on u128, written from the rules alone. It
//! shares no code and no definitions with the clearing book that is tested by it.

pub mod programs;
pub mod rules;
