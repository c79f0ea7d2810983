//! `wattle practice`: the grid file of a practice grid.

use crate::args::Args;
use crate::{Answer, Failure};
use wattlerugby::{practice_values, written};

pub fn practice(args: &Args) -> Result<Answer, Failure> {
    let (Some(sides), Some(seed)) = (args.sides()?, args.seed()?) else {
        return Err(Failure::unusable("practice needs --sides A,B,C and --seed N; see `wattle help practice`"));
    };
    let values = practice_values(sides, seed).expect("fit sides");
    let file = written(sides, args.openings()?.unwrap_or(0), &values).expect("fit sides, and a fit value for each voxel");
    Ok(Answer::file(file))
}
