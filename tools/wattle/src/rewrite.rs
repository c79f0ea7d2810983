//! `wattle rewrite`: the same grid as a file in its written form, with single voxels corrected where `--set` says.

use crate::args::Args;
use crate::file::{is_value, Scan, Source};
use crate::patch::sets;
use crate::{Answer, Failure};
use wattlerugby::{written, MISSING};

pub fn rewrite(args: &Args) -> Result<Answer, Failure> {
    let source = Source::open(&args.files[0])?;
    let mut scan = Scan::of(if args.has("--sort") { source.sorted() } else { source })?.allowing(args)?;
    for (index, value) in sets(args, &scan, "a value from -1000000000 to 1000000000, or `missing`", number)? {
        scan.values[index] = value;
    }
    let file = written(scan.sides, scan.allowed, &scan.values).expect("read gives fit sides, and a fit value for each voxel");
    Ok(Answer::file(file))
}

/// The mark of a missing point has its own word, and is not taken as a number.
fn number(value: &str) -> Option<i32> {
    match value {
        "missing" => Some(MISSING),
        _ => value.parse().ok().filter(|&number| number != MISSING && is_value(number)),
    }
}
