//! Commands on one file or several: these are shared out among the processor's cores, and answered in the order given.

use crate::args::Args;
use crate::file::Source;
use crate::json::{object, string};
use crate::{Answer, Failure, Status};
use std::path::Path;
use std::sync::atomic::{AtomicUsize, Ordering};

/// What is said of a file, with notes for the standard error.
pub struct Said {
    pub text: String,
    pub notes: Vec<String>,
    pub status: Status,
}

impl Said {
    pub fn new(text: String, status: Status) -> Said {
        Said { text, notes: Vec::new(), status }
    }
}

/// The answer on all files. `good` is what a grid is called that is not refused.
pub fn each(args: &Args, good: &str, say: impl Fn(Source) -> Result<Said, Failure> + Sync) -> Result<Answer, Failure> {
    // wrong for all files alike, so said once
    args.openings()?;
    if let ([file], false) = (&args.files[..], args.has("--json")) {
        let said = say(Source::open(file)?)?;
        said.notes.iter().for_each(|note| eprintln!("wattle: note: {note}"));
        return Ok(Answer::text(said.text, said.status));
    }
    let (mut text, mut counts, mut status) = (String::new(), [0; 3], Status::Done);
    let named = |file: &Path| Source::open(file).map(|source| Source { name: full_name(file), ..source });
    let all = shared_out(args.files.len(), |i| named(&args.files[i]).and_then(&say));
    for (file, said) in args.files.iter().zip(all) {
        let name = full_name(file);
        let said = said.unwrap_or_else(|failure| failed(args, &name, failure));
        said.notes.iter().for_each(|note| eprintln!("wattle: note: {name}: {note}"));
        text += &said.text;
        counts[said.status as usize] += 1;
        status = status.max(said.status);
    }
    if !args.has("--json") {
        let [done, refused, unusable] = counts;
        text += &format!("{} files: {done} {good}, {refused} refused, {unusable} not read\n", args.files.len());
    }
    Ok(Answer::text(text, status))
}

/// A file by the path given, since several may have the same last part. A line feed in it would break the lines.
fn full_name(file: &Path) -> String {
    file.display().to_string().replace(char::is_control, "?")
}

/// A file that gets no answer does not keep the others from theirs.
fn failed(args: &Args, name: &str, failure: Failure) -> Said {
    let line = if failure.line.starts_with(name) { failure.line } else { format!("{name}: {}", failure.line) };
    eprintln!("wattle: {line}");
    let text = match args.has("--json") {
        true => object(&[("file", string(name)), ("error", string(&line))]) + "\n",
        false => String::new(),
    };
    Said::new(text, failure.status)
}

/// What is made of each number below a count, in their order, by all cores. A core takes the next number when it is done with one.
pub fn shared_out<T: Send>(count: usize, make: impl Fn(usize) -> T + Sync) -> Vec<T> {
    let next = AtomicUsize::new(0);
    let work = || {
        let take = || Some(next.fetch_add(1, Ordering::Relaxed)).filter(|&i| i < count);
        std::iter::from_fn(take).map(|i| (i, make(i))).collect::<Vec<_>>()
    };
    let cores = std::thread::available_parallelism().map_or(1, usize::from).min(count);
    let mut made: Vec<_> = std::thread::scope(|scope| {
        let workers: Vec<_> = (0..cores).map(|_| scope.spawn(work)).collect();
        workers.into_iter().flat_map(|worker| worker.join().expect("no grid makes a worker panic")).collect()
    });
    made.sort_by_key(|(i, _)| *i);
    made.into_iter().map(|(_, made)| made).collect()
}
