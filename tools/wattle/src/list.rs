//! `wattle list`: the voxels that a surveyor goes back to, one to a line.

use crate::args::Args;
use crate::body::{Body, Kind};
use crate::file::{refusal, Scan};
use crate::frame::Frame;
use crate::gaps::dents;
use crate::json::{object, string};
use crate::start::Start;
use crate::{Answer, Failure, Status};
use wattlerugby::MISSING;

/// What `--kind` takes, in the order of the list.
const KINDS: [&str; 6] = ["filled", "missing", "dent", "opened", "discarded", "gap"];

/// A voxel with its kind; and of an opening k and m.
struct Entry {
    kind: &'static str,
    index: usize,
    test: Option<(u32, u32)>,
}

pub fn list(args: &Args) -> Result<Answer, Failure> {
    let (format, frame) = (args.format(["--csv", "--json"])?, Frame::of(args)?);
    if let Some(kind) = args.values("--kind").find(|kind| !KINDS.contains(kind)) {
        return Err(Failure::unusable(format!("there is no kind {kind}; the kinds are {}", KINDS.join(", "))));
    }
    let scan = Scan::open(&args.files[0])?.allowing(args)?;
    let body = Body::carve(&scan, Start::of(args, &scan)?).map_err(|refused| refusal(&scan.name, refused))?;
    body.note();
    let asked = |kind: &&str| !args.has("--kind") || args.values("--kind").any(|word| word == *kind);
    let entries: Vec<Entry> = KINDS.into_iter().filter(asked).flat_map(|kind| entries(&body, kind)).collect();
    let text = if format == "--csv" { csv(&scan, &frame, &entries) } else { json(&scan, &frame, &entries) };
    Ok(Answer::text(text, Status::Done))
}

/// The voxels of a kind, by index; openings in the order in which they were made.
fn entries(body: &Body, kind: &'static str) -> Vec<Entry> {
    let of = |wanted: Kind| body.all(|i| body.kinds[i] == wanted).collect();
    let mut voxels: Vec<usize> = match kind {
        "opened" => {
            let entry = |o: &wattlerugby::Opened| Entry { kind, index: o.index, test: Some((o.k, o.m)) };
            return body.openings.iter().map(entry).collect();
        }
        "filled" => of(Kind::Filled),
        "missing" => of(Kind::FilledMissing),
        "gap" => of(Kind::Gap),
        "discarded" => body.discarded().collect(),
        _ => dents(body).concat(),
    };
    voxels.sort_unstable();
    voxels.into_iter().map(|index| Entry { kind, index, test: None }).collect()
}

/// The names of the columns: those of a place in units only where these are known.
fn columns(frame: &Frame) -> &'static [&'static str] {
    let all = &["x", "y", "z", "index", "value", "kind", "k", "m", "at_x", "at_y", "at_z"];
    if frame.is_given() {
        all
    } else {
        &all[..8]
    }
}

/// A row's cells, in the order of the columns. A missing range point has no value, and only an opening has k and m.
fn cells(scan: &Scan, frame: &Frame, entry: &Entry) -> Vec<Option<String>> {
    let (place, value) = (scan.place(entry.index), scan.values[entry.index]);
    let mut cells: Vec<Option<String>> = place.iter().chain([&entry.index]).map(|n| Some(n.to_string())).collect();
    cells.push((value != MISSING).then(|| value.to_string()));
    cells.push(Some(entry.kind.to_string()));
    cells.extend([entry.test.map(|(k, _)| k.to_string()), entry.test.map(|(_, m)| m.to_string())]);
    cells.extend(frame.centre(place).map(|n| Some(n.to_string())));
    cells
}

fn csv(scan: &Scan, frame: &Frame, entries: &[Entry]) -> String {
    let columns = columns(frame);
    let row =
        |entry| cells(scan, frame, entry).into_iter().take(columns.len()).map(Option::unwrap_or_default).collect::<Vec<_>>().join(",");
    std::iter::once(columns.join(",")).chain(entries.iter().map(row)).map(|row| row + "\n").collect()
}

fn json(scan: &Scan, frame: &Frame, entries: &[Entry]) -> String {
    let cell = |(name, cell): (&&'static str, Option<String>)| match (*name, cell) {
        (name, None) => (name, "null".to_string()),
        ("kind", Some(kind)) => ("kind", string(&kind)),
        (name, Some(number)) => (name, number),
    };
    let row = |entry| object(&columns(frame).iter().zip(cells(scan, frame, entry)).map(cell).collect::<Vec<_>>());
    format!("[{}]\n", entries.iter().map(row).collect::<Vec<_>>().join(",\n"))
}
