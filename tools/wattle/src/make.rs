//! `wattle make`: a grid file from samples in NRRD, from rows of CSV, or of a shape.

mod csv;
mod nrrd;
mod shapes;

use crate::args::Args;
use crate::file::{is_value, Source};
use crate::{Answer, Failure};
use std::io::Read;
use std::path::Path;
use wattlerugby::{written, Sides, GREATEST_VALUE, LEAST_VALUE};

/// The most bytes that are read of a file: a row of CSV for each voxel of the largest grid has 255 of them.
const MOST_BYTES: u64 = 255 * 64 * 64 * 64;

/// Which options each of the three has.
const OF_NRRD: &[&str] = &[];
const OF_CSV: &[&str] = &["--sides", "--sparse"];
const OF_SHAPE: &[&str] = &["--shape", "--sides", "--noise", "--missing", "--seed"];

/// Sides, and a value for each voxel.
struct Made {
    sides: Sides,
    values: Vec<i32>,
}

pub fn make(args: &Args) -> Result<Answer, Failure> {
    let allowed = args.openings()?.unwrap_or(0);
    let made = match (args.value("--shape"), args.files.first()) {
        (Some(_), Some(file)) => return Err(Failure::unusable(format!("make takes --shape or a file, not both: {}", file.display()))),
        (None, None) => return Err(Failure::unusable("make needs a file or --shape SHAPE; see `wattle help make`")),
        (Some(shape), None) => {
            only(args, OF_SHAPE, "a shape")?;
            shapes::shape(args, shape, args.sides()?)?
        }
        (None, Some(file)) => of_file(args, file)?,
    };
    let file = written(made.sides, allowed, &made.values).expect("fit sides, and a fit value for each voxel");
    Ok(Answer::file(file))
}

/// What a file is, its first letters say.
fn of_file(args: &Args, file: &Path) -> Result<Made, Failure> {
    let source = opened(file)?;
    let told = |wrong: String| Failure::unusable(format!("{}: {}", source.name, one_line(&wrong)));
    if source.bytes.starts_with(b"NRRD") {
        only(args, OF_NRRD, "NRRD")?;
        return nrrd::read(&source.bytes).map_err(told);
    }
    if source.bytes.starts_with(b"VH") {
        return Err(told("this is a grid file already; `wattle rewrite` gives it its written form".to_string()));
    }
    only(args, OF_CSV, "CSV")?;
    let sides = args.sides()?;
    csv::read(&source.bytes, sides, args.has("--sparse")).map_err(told)
}

/// What is quoted from a file may be anything, and of any length.
fn one_line(words: &str) -> String {
    words.replace(char::is_control, "?").chars().take(300).collect()
}

fn opened(file: &Path) -> Result<Source, Failure> {
    let cannot = |e: std::io::Error| Failure::unusable(format!("{} cannot be read: {e}", file.display()));
    let input: Box<dyn Read> = match file == Path::new("-") {
        true => Box::new(std::io::stdin()),
        false => Box::new(std::fs::File::open(file).map_err(cannot)?),
    };
    let mut bytes = Vec::new();
    input.take(MOST_BYTES + 1).read_to_end(&mut bytes).map_err(cannot)?;
    if bytes.len() as u64 > MOST_BYTES {
        return Err(Failure::unusable(format!(
            "{} has over {MOST_BYTES} bytes, more than any grid of 64 voxels a side needs",
            file.display()
        )));
    }
    Ok(Source::named(file, bytes))
}

/// Refuses an option that would do nothing.
fn only(args: &Args, taken: &[&str], what: &str) -> Result<(), Failure> {
    let all = OF_CSV.iter().chain(OF_SHAPE).find(|option| args.has(option) && !taken.contains(option));
    all.map_or(Ok(()), |option| Err(Failure::unusable(format!("{option} is not for {what}; see `wattle help make`"))))
}

/// Sides that a grid can have.
fn fit(sides: Sides) -> Option<Sides> {
    Some(sides).filter(|sides| sides.voxels().is_some())
}

/// A value that a grid can have, the mark of a missing point among them.
fn value(number: i64) -> Result<i32, String> {
    let fit = i32::try_from(number).ok().filter(|&value| is_value(value));
    fit.ok_or_else(|| format!("has {number}, and a value is {LEAST_VALUE} to {GREATEST_VALUE}"))
}
