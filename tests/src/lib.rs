//! Grids, grid files and call scripts, the same on every machine; what conformance/ must contain; and how a tool is compared.

pub mod coarse;
pub mod compare;
pub mod conformance;
pub mod demands;
pub mod faces;
pub mod faults;
pub mod files;
pub mod gaps;
pub mod grids;
pub mod judged;
pub mod marks;
pub mod mutants;
pub mod practised;
pub mod processor;
pub mod progress;
pub mod random;
pub mod records;
pub mod round_trip;
pub mod scripts;
pub mod served;
