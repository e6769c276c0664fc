//! A second program for design sheets: worked out anew from the rules, to be tried against.

pub mod cases;
pub mod drive;
pub mod envelope;
pub mod generate;
pub mod listing;
pub mod model;
pub mod pattern;
pub mod protocol;
pub mod samples;
pub mod sheet;
pub mod tally;
#[cfg(test)]
mod tests;
pub mod theory;
pub mod walks;
