//! Examples of 01 and 02, reckoned by hand, and the words of some rules over every small case.

mod book;
mod codec;
mod examples;
mod groups;
mod halves;
mod purses;
mod washups;
