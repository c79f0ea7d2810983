//! `wattle carve`: the line of the program carve.

use crate::args::Args;
use crate::body::Body;
use crate::file::{Source, FOR_COARSE, HEADER};
use crate::frame::Frame;
use crate::json::{object, of_body, of_refused};
use crate::many::{each, Said};
use crate::start::Start;
use crate::{Answer, Failure, Status};
use wattlerugby::{Grid, Refusal};

/// The longest side and the longest input that the program takes.
const PROGRAM_SIDE: usize = 24;
const PROGRAM_BYTES: usize = 65_536;

pub fn carve(args: &Args) -> Result<Answer, Failure> {
    let frame = Frame::of(args)?;
    each(args, "carved", |source| carved(args, &frame, source))
}

fn carved(args: &Args, frame: &Frame, source: Source) -> Result<Said, Failure> {
    let name = source.name.clone();
    if let Some(limit) = program_limit(&source).filter(|_| !args.has("--large")) {
        let note = format!("the program takes {}, and so does `wattle carve --large`", most(limit));
        let notes = taken_by_the_library(source).then_some(note).into_iter().collect();
        return Ok(Said { notes, ..refused(args, &name, limit) });
    }
    let scan = match source.read() {
        Ok(scan) => scan.allowing(args)?,
        Err((_, number)) => return Ok(refused(args, &name, number)),
    };
    match Body::carve(&scan, Start::of(args, &scan)?) {
        Err(Refusal::COARSE) => Ok(Said { notes: vec![FOR_COARSE.to_string()], ..refused(args, &name, Refusal::COARSE) }),
        Err(number) => Ok(refused(args, &name, number)),
        Ok(body) => {
            let text = if args.has("--json") { object(&of_body(&body, frame)) + "\n" } else { line(args, &name, body.line()) };
            Ok(Said { text, notes: body.all_notes(), status: Status::Done })
        }
    }
}

fn refused(args: &Args, name: &str, number: Refusal) -> Said {
    let text = match args.has("--json") {
        true => object(&of_refused(name, number)) + "\n",
        false => line(args, name, format!("refused {}", number.0)),
    };
    Said::new(text, Status::Refused)
}

/// A line as the program prints it, with the file's name where there are several.
fn line(args: &Args, name: &str, line: String) -> String {
    match args.files.len() {
        1 => line + "\n",
        _ => format!("{name}: {line}\n"),
    }
}

fn taken_by_the_library(source: Source) -> bool {
    source.read().is_ok_and(|scan| Grid::begin(scan.sides, scan.allowed, &scan.values).is_ok())
}

/// What the program refuses a file with for its own limits. The input's length comes before all else; a side is checked where read checks
/// the sides: after the header's length and mark, and before the layers.
pub fn program_limit(source: &Source) -> Option<Refusal> {
    let (bytes, sides) = (&source.bytes, source.sides());
    if bytes.len() > PROGRAM_BYTES {
        return Some(Refusal::BYTES_LEFT);
    }
    let large = bytes.len() >= HEADER && bytes.starts_with(b"VH") && [sides.a, sides.b, sides.c].iter().any(|&s| s > PROGRAM_SIDE);
    large.then_some(Refusal::SIDE)
}

/// What the program takes, and what the library does.
pub fn most(limit: Refusal) -> String {
    match limit {
        Refusal::BYTES_LEFT => format!("input of {PROGRAM_BYTES} bytes at most; the library takes any length"),
        _ => format!("{PROGRAM_SIDE} voxels a side at most; the library takes 64"),
    }
}
