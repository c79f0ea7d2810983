//! Document 01 once more, with CR 1, CR 2, CR 4 to CR 12 and CR 14 of document 02, written from the papers and not from the product, plain and obvious:
//! what the product is matched against.

pub mod calls;
pub mod coarse;
pub mod file;
pub mod grid;
pub mod judge;
pub mod local;
pub mod machine;
pub mod marks;
pub mod practice;
pub mod replay;
pub mod serve;
pub mod words;
