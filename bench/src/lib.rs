//! What the benchmark is made of: the product and, where one is given, an earlier one; two implementations of the rules in Rust; the grids, and the
//! timing.

pub mod archive;
pub mod clock;
pub mod coarse;
pub mod contest;
pub mod file;
pub mod grids;
pub mod lists;
pub mod local;
pub mod neighbourhood;
pub mod office;
pub mod plain;
pub mod practice;
pub mod race;
pub mod stack;
pub mod tuned;
pub mod types;

#[cfg(test)]
mod tests;
