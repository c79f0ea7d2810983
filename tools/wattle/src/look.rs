//! `wattle look`: the layers, as text or as a picture.

use crate::args::Args;
use crate::body::{kinds_of_values, Body, Kind};
use crate::file::{refusal, Scan};
use crate::start::Start;
use crate::{picture, Answer, Failure, Status};
use std::ops::RangeInclusive;
use wattlerugby::Refusal;

/// Columns of text that the layers beside each other may take.
const COLUMNS: usize = 100;

/// What is shown of a grid: what carving leaves of it, or its values where begin refuses it.
pub struct View<'a> {
    pub scan: &'a Scan,
    pub kinds: Vec<Kind>,
    /// The kinds that can occur, in the order of the key.
    pub key: &'static [Kind],
    /// How it was begun, in words, where that is not as the program does.
    begun: String,
    /// The program's line, or the refusal in words.
    pub line: String,
    pub status: Status,
}

impl<'a> View<'a> {
    pub fn new(scan: &'a Scan, body: &Result<Body<'a>, Refusal>) -> View<'a> {
        match body {
            Ok(body) => View::of(body),
            Err(refused) => View::refused(scan, *refused),
        }
    }

    pub fn of(body: &Body<'a>) -> View<'a> {
        let key: &[Kind] = if body.count(Kind::Pinned) > 0 { &Kind::WITH_PINS } else { &Kind::CARVED };
        let (kinds, begun) = (body.kinds.clone(), body.begun());
        View { scan: body.scan, kinds, key, begun, line: body.line(), status: Status::Done }
    }

    pub fn refused(scan: &'a Scan, refused: Refusal) -> View<'a> {
        let (kinds, line) = (kinds_of_values(scan), refused.to_string());
        View { scan, kinds, key: &Kind::REFUSED, begun: String::new(), line, status: Status::Refused }
    }

    /// Layers with their z.
    pub fn layers(&self, shown: RangeInclusive<usize>) -> Vec<(usize, &[Kind])> {
        let all = self.kinds.chunks(self.scan.sides.a * self.scan.sides.b).enumerate();
        all.filter(|(z, _)| shown.contains(z)).collect()
    }

    pub fn title(&self) -> String {
        format!("{}: {}, {}{}", self.scan.name, self.scan.size(), self.scan.allowed_told(), self.begun)
    }

    pub fn count(&self, kind: Kind) -> usize {
        self.kinds.iter().filter(|&&k| k == kind).count()
    }

    fn key_with_counts(&self) -> String {
        let entries = self.key.iter().map(|&kind| format!("{} {}: {}", kind.mark(), kind.name(), self.count(kind)));
        entries.collect::<Vec<_>>().join("   ")
    }
}

pub fn look(args: &Args) -> Result<Answer, Failure> {
    let format = args.format(["--txt", "--png"])?;
    let scan = Scan::open(&args.files[0])?.allowing(args)?;
    let shown = shown(args, scan.sides.c - 1)?;
    let scale = args.number("--scale", 1, 32)?;
    let body = Body::carve(&scan, Start::of(args, &scan)?);
    if let Err(Refusal::COARSE) = body {
        return Err(refusal(&scan.name, Refusal::COARSE));
    }
    body.iter().for_each(Body::note);
    let view = View::new(&scan, &body);
    if format == "--png" {
        let bytes = picture::png(&view, shown, scale);
        return Ok(Answer { bytes, binary: true, status: view.status });
    }
    let text = format!("{}\n{}\n\n{}\n{}", view.title(), view.line, view.key_with_counts(), layers_as_text(&view, shown));
    Ok(Answer::text(text, view.status))
}

/// The layers that `--layer` or `--layers` names, otherwise all.
fn shown(args: &Args, last: usize) -> Result<RangeInclusive<usize>, Failure> {
    match (args.number("--layer", 0, last)?, args.value("--layers")) {
        (Some(_), Some(_)) => Err(Failure::unusable("--layer and --layers are given; choose one")),
        (Some(only), None) => Ok(only..=only),
        (None, None) => Ok(0..=last),
        (None, Some(word)) => {
            let ends = word.split_once('-').and_then(|(a, b)| Some((a.parse().ok()?, b.parse().ok()?)));
            let wrong = || Failure::unusable(format!("--layers takes A-B, two layers from 0 to {last} with A not above B, not {word}"));
            ends.filter(|(a, b)| a <= b && *b <= last).map(|(a, b)| a..=b).ok_or_else(wrong)
        }
    }
}

/// The layers, as many beside each other as there is room for.
fn layers_as_text(view: &View, shown: RangeInclusive<usize>) -> String {
    let (a, b) = (view.scan.sides.a, view.scan.sides.b);
    let width = a.max("z = 63".len());
    let line = |words: Vec<String>| format!("\n{}", words.join("  ").trim_end());
    let mut text = String::new();
    for together in view.layers(shown).chunks((COLUMNS / (width + 2)).max(1)) {
        text += &line(together.iter().map(|(z, _)| format!("{:width$}", format!("z = {z}"))).collect());
        for y in 0..b {
            let row = |layer: &[Kind]| layer[a * y..a * (y + 1)].iter().map(|k| k.mark()).collect::<String>();
            text += &line(together.iter().map(|(_, layer)| format!("{:width$}", row(layer))).collect());
        }
        text += "\n";
    }
    text
}
