//! `wattle page`: one HTML page that shows a grid without a network.

use crate::args::Args;
use crate::body::{Body, Kind};
use crate::explain::unfit;
use crate::file::{refusal, Records, Scan, Source};
use crate::frame::Frame;
use crate::look::View;
use crate::meaning::meaning;
use crate::picture::{png, web};
use crate::points::{surface, SurfacePoint};
use crate::removals::{removals, Removal};
use crate::start::Start;
use crate::{Answer, Failure};
use wattlerugby::{Opened, Refusal, Sides};

/// The page with places for the parts that `page` names, each between double braces.
const TEMPLATE: &str = include_str!("page.html");

pub fn page(args: &Args) -> Result<Answer, Failure> {
    let (frame, source) = (Frame::of(args)?, Source::open(&args.files[0])?);
    let records = source.records();
    let scan = source.read().map_err(|(source, refused)| refusal(&source.name, refused))?.allowing(args)?;
    let shown = match Body::carve(&scan, Start::of(args, &scan)?) {
        Ok(body) => carved(&body, &frame),
        Err(Refusal::COARSE) => return Err(refusal(&scan.name, Refusal::COARSE)),
        Err(refused) => vec![Shown::refused(&scan, &records, refused)],
    };
    let view = &shown[0].view;
    let parts = [
        ("TITLE", escaped(&view.title())),
        ("COLOURS", colours(Kind::colour)),
        ("COLOURS IN THE DARK", colours(in_the_dark)),
        ("SWITCH", if shown.len() > 1 { switch(&scan) } else { String::new() }),
        ("WORDS", of_bodies(shown.iter().map(Shown::words))),
        ("SURFACES", of_bodies(shown.iter().map(Shown::surface))),
        ("PICTURE", base64(png(view, 0..=scan.sides.c - 1, None).into_iter())),
        ("DATA", data(&scan, &shown, &frame)),
    ];
    Ok(Answer { bytes: filled(&parts).into_bytes(), binary: true, status: view.status })
}

/// The largest grid that can be watched being carved. Beyond it the page would be long to load, and its slider too fine for a hand.
const MOST_WATCHED: usize = 32 * 32 * 32;

// ---- what is shown: the body with T as given, and the one with openings allowed freely

struct Shown<'a> {
    view: View<'a>,
    sentences: Vec<String>,
    points: Vec<SurfacePoint>,
    openings: Vec<Opened>,
    removals: Vec<Removal>,
}

/// The body, and the one with openings allowed freely where that is another.
fn carved<'a>(body: &Body<'a>, frame: &Frame) -> Vec<Shown<'a>> {
    let free = body.freely();
    let first = Shown::of(body, free.as_ref().unwrap_or(body), frame);
    std::iter::once(first).chain(free.map(|free| Shown::of(&free, &free, frame))).collect()
}

impl<'a> Shown<'a> {
    fn of(body: &Body<'a>, free: &Body, frame: &Frame) -> Shown<'a> {
        let (view, sentences) = (View::of(body), meaning(body, free, frame));
        let removals = if body.kinds.len() > MOST_WATCHED { Vec::new() } else { removals(body) };
        Shown { view, sentences, points: surface(body), openings: body.openings.clone(), removals }
    }

    fn refused(scan: &'a Scan, records: &Records, refused: Refusal) -> Shown<'a> {
        let (place, advice) = unfit(scan, records, refused);
        let sentences = vec![format!("Where: {place}"), format!("What to do: {advice}")];
        Shown { view: View::refused(scan, refused), sentences, points: Vec::new(), openings: Vec::new(), removals: Vec::new() }
    }

    /// The line, what it means, and the key of the voxels.
    fn words(&self) -> String {
        let items: String = self.sentences.iter().map(|s| format!("<li>{}</li>\n", escaped(s))).collect();
        let named = |kind: Kind| format!("<code>{}</code> {}", kind.mark(), kind.name());
        let key: String = self.view.key.iter().map(|&kind| entry(kind, &named(kind), self.view.count(kind))).collect();
        format!(
            "<p class=\"line\">{}</p>\n<ul class=\"meaning\">\n{items}</ul>\n<ul class=\"key\">\n{key}</ul>\n",
            escaped(&self.view.line)
        )
    }

    /// The key of the points, and the openings to choose from.
    fn surface(&self) -> String {
        let bases = POINTS.iter().map(|&(kind, name)| (kind, name, self.points.iter().filter(|p| p.rests_on == kind).count()));
        let all = bases.chain([(Kind::Opened, "ring: opened voxel", self.openings.len())]);
        let key: String = all.filter(|(.., count)| *count > 0).map(|(kind, name, count)| entry(kind, name, count)).collect();
        let choices: String = self.openings.iter().enumerate().map(|(i, opened)| self.choice(i, opened)).collect();
        let openings = match self.openings.is_empty() {
            true => "<p class=\"hint\">Nothing was opened.</p>\n".to_string(),
            false => format!(
                "<label class=\"list\">Openings in their order; choose one to go there<select class=\"openings\" size=\"4\">\n{choices}</select></label>\n"
            ),
        };
        format!("<ul class=\"key\">\n{key}</ul>\n{openings}")
    }

    fn choice(&self, number: usize, opened: &Opened) -> String {
        let Opened { index, k, m, .. } = opened;
        format!("<option value=\"{index}\">{}: {}, k = {k}, m = {m}</option>\n", number + 1, self.view.scan.voxel(*index))
    }

    fn data(&self) -> String {
        let coordinates = self.points.iter().flat_map(|p| [p.at.x, p.at.y, p.at.z]).flat_map(|c| (c as f32).to_le_bytes());
        let removals = self.removals.iter().flat_map(|removal| (8 * removal.index as u32 + removal.face.number()).to_le_bytes());
        format!(
            "{{\"voxels\": \"{}\",\n\"points\": \"{}\",\n\"restsOn\": \"{}\",\n\"openings\": {:?},\n\"removals\": \"{}\"}}",
            base64(self.view.kinds.iter().map(|&k| k as u8)),
            base64(coordinates),
            base64(self.points.iter().map(|p| p.rests_on as u8)),
            self.openings.iter().map(|o| o.index).collect::<Vec<_>>(),
            base64(removals)
        )
    }
}

/// What a point rests on, in words: colours are those of voxels, and mean something else of a point.
const POINTS: [(Kind, &str); 4] = [
    (Kind::Inside, "measured point"),
    (Kind::Filled, "assumed point, between measured voxels"),
    (Kind::FilledMissing, "assumed point, beside a missing range point"),
    (Kind::Pinned, "point on a pinned voxel"),
];

// ---- the page's parts

/// A part of the page for each of the bodies, of which one is shown: at first that of the body with T as given.
fn of_bodies(parts: impl Iterator<Item = String>) -> String {
    let hidden = |number: usize| if number > 0 { " hidden" } else { "" };
    parts.enumerate().map(|(number, part)| format!("<div data-body=\"{number}\"{}>\n{part}</div>\n", hidden(number))).collect()
}

fn switch(scan: &Scan) -> String {
    format!(
        "<p id=\"switch\"><label>Openings <select id=\"body\"><option value=\"0\">{}</option><option value=\"1\">allowed freely</option></select></label></p>",
        escaped(&scan.allowed_told())
    )
}

fn entry(kind: Kind, name: &str, count: usize) -> String {
    format!("<li><span style=\"background: var(--k{})\"></span>{name}: {count}</li>\n", kind as u8)
}

/// The colours of all kinds, by number, as the page's style names them.
fn colours(colour: impl Fn(Kind) -> [u8; 3]) -> String {
    Kind::ALL.map(|kind| format!("--k{}: {};", kind as u8, web(colour(kind)))).join(" ")
}

/// What is as pale or as dark as paper is turned round where the paper is dark.
fn in_the_dark(kind: Kind) -> [u8; 3] {
    match kind {
        Kind::Gone | Kind::Outside => [0x30, 0x35, 0x3B],
        Kind::Pinned => [0xFF; 3],
        _ => kind.colour(),
    }
}

/// The template with its places filled, from left to right, so that a text which looks like a place is left alone.
fn filled(parts: &[(&str, String)]) -> String {
    let mut pieces = TEMPLATE.split("{{");
    let mut page = pieces.next().unwrap_or_default().to_string();
    for piece in pieces {
        let (place, rest) = piece.split_once("}}").expect("a place in the template is closed");
        let part = parts.iter().find(|(name, _)| *name == place).expect("a place in the template has a part");
        page += &part.1;
        page += rest;
    }
    page
}

fn escaped(text: &str) -> String {
    text.replace('&', "&amp;").replace('<', "&lt;").replace('>', "&gt;").replace('"', "&quot;")
}

/// Everything that the script draws, as JSON of numbers, names of kinds and base64, so that nothing in it can end the script.
fn data(scan: &Scan, shown: &[Shown], frame: &Frame) -> String {
    let Sides { a, b, c } = scan.sides;
    let kinds = Kind::ALL.map(|k| format!("{{\"name\": \"{}\", \"mark\": \"{}\"}}", k.name(), k.mark()));
    let placed = match frame.is_given() {
        true => format!("\"voxel\": {:?},\n\"origin\": {:?},\n", frame.voxel, frame.origin),
        false => String::new(),
    };
    format!(
        "{{\"sides\": [{a}, {b}, {c}],\n{placed}\"kinds\": [{}],\n\"values\": \"{}\",\n\"bodies\": [{}]}}",
        kinds.join(", "),
        base64(scan.values.iter().flat_map(|v| v.to_le_bytes())),
        shown.iter().map(Shown::data).collect::<Vec<_>>().join(",\n")
    )
}

fn base64(bytes: impl Iterator<Item = u8>) -> String {
    const LETTERS: &[u8; 64] = b"ABCDEFGHIJKLMNOPQRSTUVWXYZabcdefghijklmnopqrstuvwxyz0123456789+/";
    let bytes: Vec<u8> = bytes.collect();
    let mut text = String::with_capacity(bytes.len().div_ceil(3) * 4);
    for three in bytes.chunks(3) {
        let bits = (0..3).fold(0, |bits, i| bits << 8 | usize::from(three.get(i).copied().unwrap_or(0)));
        for letter in 0..4 {
            let taken = letter <= three.len();
            text.push(if taken { char::from(LETTERS[bits >> (18 - 6 * letter) & 63]) } else { '=' });
        }
    }
    text
}
