//! wattle: looks at grid files and at the bodies that carving leaves of them, and makes, patches and rewrites grid files, for surveyors and
//! for support; makes and judges lists of removals, for two firms that carve the same grids; and makes practice grids, for those who train.
//!
//! Everything about carving comes from the proved library, by way of the wrapper; what is here reads files, words and draws.

mod amounts;
mod args;
mod body;
mod carve;
mod compare;
mod deflate;
mod explain;
mod file;
mod font;
mod frame;
mod gaps;
mod groups;
mod help;
mod json;
mod judge;
mod kept;
mod list;
mod look;
mod make;
mod many;
mod marks;
mod meaning;
mod output;
mod page;
mod patch;
mod picture;
mod png;
mod points;
mod practice;
mod progress;
mod removals;
mod rewrite;
mod shaky;
mod start;
mod volume;
mod words;

use args::Args;
use std::process::ExitCode;

/// How a command ended. The numbers are the same for every command; help.rs tells them to the user.
#[derive(Clone, Copy, Debug, PartialEq, Eq, PartialOrd, Ord)]
pub enum Status {
    Done = 0,
    /// The grid is refused; for `judge` the list, too; for `compare`, the two differ.
    Refused = 1,
    Unusable = 2,
}

/// What a command prints or writes, and how it ended.
pub struct Answer {
    pub bytes: Vec<u8>,
    /// Whether the bytes are for a program: these are not written to a terminal.
    pub binary: bool,
    pub status: Status,
}

impl Answer {
    pub fn text(text: String, status: Status) -> Answer {
        Answer { bytes: text.into_bytes(), binary: false, status }
    }

    pub fn file(bytes: Vec<u8>) -> Answer {
        Answer { bytes, binary: true, status: Status::Done }
    }
}

/// Why there is no answer: one line for the user, and the status.
#[derive(Debug)]
pub struct Failure {
    pub line: String,
    pub status: Status,
}

impl Failure {
    pub fn unusable(line: impl Into<String>) -> Failure {
        Failure { line: line.into(), status: Status::Unusable }
    }
}

fn main() -> ExitCode {
    let words: Vec<std::ffi::OsString> = std::env::args_os().skip(1).collect();
    match run(&words) {
        Ok(status) => ExitCode::from(status as u8),
        Err(failure) => {
            eprintln!("wattle: {}", failure.line);
            ExitCode::from(failure.status as u8)
        }
    }
}

fn run(words: &[std::ffi::OsString]) -> Result<Status, Failure> {
    let args = match Args::parse(words)? {
        args::Request::Help(text) => return output::deliver(Answer::text(text, Status::Done), None, false),
        args::Request::Run(args) => args,
    };
    args.check_output()?;
    let answer = match args.command {
        "look" => look::look(&args),
        "explain" => explain::explain(&args),
        "points" => points::points(&args),
        "volume" => volume::volume(&args),
        "compare" => compare::compare(&args),
        "shaky" => shaky::shaky(&args),
        "list" => list::list(&args),
        "removals" => removals::list(&args),
        "judge" => judge::judge(&args),
        "make" => make::make(&args),
        "practice" => practice::practice(&args),
        "page" => page::page(&args),
        "patch" => patch::patch(&args),
        "rewrite" => rewrite::rewrite(&args),
        _ => carve::carve(&args),
    }?;
    output::deliver(answer, args.output.as_deref(), args.has("--force"))
}
