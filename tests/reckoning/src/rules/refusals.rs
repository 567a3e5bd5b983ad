//! The numbers of 01's section "Refused, by whoever causes it", and those that 02 adds.

pub const ACCEPTED: u8 = 0;
/// No byte, or fewer than the body needs.
pub const TOO_FEW_BYTES: u8 = 1;
pub const KIND_UNKNOWN: u8 = 2;
pub const FIELD_OUTSIDE: u8 = 3;
/// n is 0 or above the participant limit, or a limit is outside its values (02, f).
pub const N_REFUSED: u8 = 4;
/// Fewer than n payout words, or fewer bytes than the writer needs.
pub const TOO_LITTLE_LENT: u8 = 5;
pub const NOT_ABOVE_HIGHEST: u8 = 6;
/// As many periods as the period limit are in the book.
pub const PERIODS_AT_LIMIT: u8 = 7;
pub const PERIOD_NOT_IN_BOOK: u8 = 8;
pub const WRONG_STAGE: u8 = 9;
pub const SIDES_UNEQUAL: u8 = 10;
pub const TOTAL_PASSES_BOUND: u8 = 11;
/// The participant is n or above.
pub const NO_PARTICIPANT: u8 = 12;
pub const RECEIPT_ABOVE: u8 = 13;
pub const EARLIER_ARREARS: u8 = 14;
/// The purse would pass 10,000,000,000,000 (02, c).
pub const PURSE_PASSES_BOUND: u8 = 15;
/// A washup's earlier period is not 1 to 24 below its period (02, e).
pub const EARLIER_PERIOD_OUTSIDE: u8 = 16;

/// How many numbers there are, 0 (accepted) among them.
pub const NUMBERS: usize = 17;
