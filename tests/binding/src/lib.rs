//! The exports of the clearing book's static library, and the rows of a month as the slices that they
//! take and write.

pub mod arguments;
pub mod exports;
