//! `wattle shaky`: what one uncertain range point can do to the body.
//!
//! That the inside stays, and that no worked distance moves by more than the value does, is proved (theorem OneShakyShot). The body may change all
//! the same: the grid is carved again, with the value lower and higher.

use crate::args::{number, Args};
use crate::body::Body;
use crate::file::{is_negative, refusal, Scan};
use crate::frame::Frame;
use crate::json::{object, of_body, Field};
use crate::many::shared_out;
use crate::marks::index;
use crate::progress::Progress;
use crate::start::Start;
use crate::words::{some, was};
use crate::{Answer, Failure, Status};
use std::cmp::Reverse;
use wattlerugby::{GONE, GREATEST_VALUE, MISSING};

/// Voxels that a list names.
const NAMED: usize = 10;

/// Voxels tried between two looks at the clock.
const TOGETHER: usize = 64;

/// The two ways that a value moves, and why it goes no further.
const WAYS: [(&str, &str); 2] = [("lower", "a lower value would be inside"), ("higher", "a grid holds no higher value")];

pub fn shaky(args: &Args) -> Result<Answer, Failure> {
    // no two values that are not negative lie further apart
    let most = GREATEST_VALUE as usize;
    let (voxel, by) = match (&args.words[..], args.number("--all", 1, most)?) {
        ([voxel, by], None) => (Some(voxel), number("E", by, 1, most)?),
        ([], Some(by)) => (None, by),
        _ => return Err(Failure::unusable("shaky takes FILE VOXEL E, or FILE --all E; see `wattle help shaky`")),
    };
    let scan = Scan::open(&args.files[0])?.allowing(args)?;
    let voxel = voxel.map(|word| measured_outside(&scan, index(args, &scan, "shaky", word)?)).transpose()?;
    let body = Body::carve(&scan, Start::of(args, &scan)?).map_err(|refused| refusal(&scan.name, refused))?;
    body.note();
    let tried = Tried::new(&body, voxel, by as i32);
    let text = match args.has("--json") {
        true => object(&[of_body(&body, &Frame::of(args)?), tried.fields()].concat()) + "\n",
        false => tried.told(),
    };
    Ok(Answer::text(text, Status::Done))
}

/// The voxel, where the theorem speaks of it.
fn measured_outside(scan: &Scan, index: usize) -> Result<usize, Failure> {
    let why = match scan.values[index] {
        MISSING => "is missing".to_string(),
        value if value < 0 => format!("is measured negative, {value}"),
        _ => return Ok(index),
    };
    Err(Failure::unusable(format!("voxel {}, {why}; shaky moves a value that is measured and not negative", scan.voxel(index))))
}

// ---- carving again

/// What carving leaves with another value at one voxel, beside the body of the grid as it is.
struct Moved {
    value: i32,
    /// Voxels kept before and not now, by index.
    gone: Vec<usize>,
    /// Voxels kept now and not before, by index.
    new: Vec<usize>,
    euler: i32,
    opened: Vec<usize>,
}

impl Moved {
    fn of(body: &Body, index: usize, value: i32) -> Moved {
        let mut values = body.scan.values.clone();
        values[index] = value;
        let scan = Scan { name: String::new(), values, ..*body.scan };
        let now = Body::carve(&scan, body.start.clone()).expect("begin takes the grid with another value that is not negative");
        let kept = |body: &Body, i: usize| body.grid.status()[i] != GONE;
        Moved {
            value,
            gone: body.all(|i| kept(body, i) && !kept(&now, i)).collect(),
            new: body.all(|i| kept(&now, i) && !kept(body, i)).collect(),
            euler: now.grid.record().euler,
            opened: opened(&now),
        }
    }

    fn differ(&self) -> usize {
        self.gone.len() + self.new.len()
    }
}

/// The voxels opened, in their order.
fn opened(body: &Body) -> Vec<usize> {
    body.openings.iter().map(|opening| opening.index).collect()
}

/// An uncertain range point, with its value lower and higher.
struct Shot {
    index: usize,
    moved: [Moved; 2],
}

impl Shot {
    fn of(body: &Body, index: usize, by: i32) -> Shot {
        let value = body.scan.values[index];
        let moved = [(value - by).max(0), (value + by).min(GREATEST_VALUE)].map(|value| Moved::of(body, index, value));
        Shot { index, moved }
    }

    /// How many voxels of the body differ, the worse way.
    fn differ(&self) -> usize {
        self.moved.iter().map(Moved::differ).max().unwrap_or(0)
    }
}

/// The voxels that `--all` tries, by index.
fn beside_the_inside(scan: &Scan) -> Vec<usize> {
    let beside = |&i: &usize| scan.values[i] >= 0 && scan.faces(i).any(|j| is_negative(scan.values[j]));
    (0..scan.values.len()).filter(beside).collect()
}

/// What was tried of a body: a voxel, or all beside the inside, the worst first and of equals the smallest index.
struct Tried<'a> {
    body: &'a Body<'a>,
    by: i32,
    all: bool,
    shots: Vec<Shot>,
}

impl<'a> Tried<'a> {
    fn new(body: &'a Body<'a>, voxel: Option<usize>, by: i32) -> Tried<'a> {
        let voxels = voxel.map_or_else(|| beside_the_inside(body.scan), |index| vec![index]);
        let (mut shots, mut progress) = (Vec::new(), Progress::new());
        for together in voxels.chunks(TOGETHER) {
            shots.extend(shared_out(together.len(), |i| Shot::of(body, together[i], by)));
            progress.show(|| format!("shaky: tried {} of {}", shots.len(), some(voxels.len(), "voxel")));
        }
        shots.sort_by_key(|shot| (Reverse(shot.differ()), shot.index));
        Tried { body, by, all: voxel.is_none(), shots }
    }

    /// How many of them change the body.
    fn changing(&self) -> usize {
        self.shots.iter().filter(|shot| shot.differ() > 0).count()
    }

    /// Those of them that a list names.
    fn worst(&self) -> &[Shot] {
        &self.shots[..self.changing().min(NAMED)]
    }
}

// ---- in words

impl Tried<'_> {
    /// The grid as it is, what is proved, and what carving again gave.
    fn told(&self) -> String {
        let (body, scan, by) = (self.body, self.body.scan, self.by);
        let title = format!("{}: {}, {}{}\n{}", scan.name, scan.size(), scan.allowed_told(), body.begun(), body.line());
        let proved = format!("S, the inside, stays the same and no worked distance moves by more than {by} (theorem OneShakyShot)");
        let (which, outcome) = if self.all { self.of_all() } else { self.of_one(&self.shots[0]) };
        format!("{title}\n{which} {proved}; the body may still change:\n{outcome}")
    }

    fn of_one(&self, shot: &Shot) -> (String, String) {
        let scan = self.body.scan;
        let which = format!("Voxel {}, is measured {}.", scan.voxel(shot.index), scan.values[shot.index]);
        (which, [0, 1].map(|way| self.one_way(shot, way)).concat())
    }

    /// What a value that is lower, or higher, makes of the body, with the voxels that differ.
    fn one_way(&self, shot: &Shot, way: usize) -> String {
        let (scan, now, (name, limit)) = (self.body.scan, &shot.moved[way], WAYS[way]);
        let value = scan.values[shot.index];
        let step = value.abs_diff(now.value);
        if step == 0 {
            return format!("- not {name}: it is {value}, and {limit}.\n");
        }
        let end = if step < self.by.unsigned_abs() { format!(", since {limit}") } else { String::new() };
        let differ = match now.differ() {
            0 => "the body is the same".to_string(),
            voxels => format!("{}, {} gone and {} new", differ(voxels), now.gone.len(), now.new.len()),
        };
        let mut voxels: Vec<(usize, &str)> = now.gone.iter().map(|&i| (i, "gone")).chain(now.new.iter().map(|&i| (i, "new"))).collect();
        voxels.sort_unstable();
        let named: String = voxels.iter().take(NAMED).map(|(i, what)| format!("  {}: {what}\n", scan.voxel(*i))).collect();
        format!("- {step} {name}, {}{end}: {differ}; {}.\n{named}{}", now.value, self.besides(now), more(voxels.len()))
    }

    /// Euler number and openings, with what they were.
    fn besides(&self, now: &Moved) -> String {
        let (euler, before) = (self.body.grid.record().euler, opened(self.body));
        let as_before = |now: i64, before: i64| if now == before { format!("{now} as before") } else { format!("{now}, before {before}") };
        let others = if now.opened != before && now.opened.len() == before.len() { ", but of other voxels" } else { "" };
        let openings = as_before(now.opened.len() as i64, before.len() as i64);
        format!("Euler number {}; openings {openings}{others}", as_before(now.euler.into(), euler.into()))
    }

    /// How many were tried and how many changed nothing, and the worst.
    fn of_all(&self) -> (String, String) {
        let (by, tried, changing) = (self.by, self.shots.len(), self.changing());
        let which = format!("Each voxel measured outside, beside one that is measured negative, alone {by} lower and {by} higher.");
        if changing == 0 {
            return (which, format!("{} tried, and none changed the body.\n", was(tried, "voxel")));
        }
        let worst: String = self.worst().iter().map(|shot| self.both_ways(shot)).collect();
        let counts = format!("{} tried, and {} changed nothing of the body.", was(tried, "voxel"), tried - changing);
        (which, format!("{counts} The worst first:\n{worst}{}", more(changing)))
    }

    /// With which value how many voxels of the body differ; the Euler numbers, where one is another than before.
    fn both_ways(&self, shot: &Shot) -> String {
        let (scan, [lower, higher]) = (self.body.scan, &shot.moved);
        let before = self.body.grid.record().euler;
        let euler = match (lower.euler, higher.euler) == (before, before) {
            true => String::new(),
            false => format!("; Euler number {} with {}, {} with {}", lower.euler, lower.value, higher.euler, higher.value),
        };
        format!(
            "  {}, measured {}: {} with {}, {} with {}{euler}\n",
            scan.voxel(shot.index),
            scan.values[shot.index],
            differ(lower.differ()),
            lower.value,
            higher.differ(),
            higher.value
        )
    }
}

/// `1 voxel differs`, `2 voxels differ`.
fn differ(voxels: usize) -> String {
    some(voxels, "voxel") + if voxels == 1 { " differs" } else { " differ" }
}

/// How many voxels of a list are not named.
fn more(all: usize) -> String {
    match all.saturating_sub(NAMED) {
        0 => String::new(),
        left => format!("  and {left} more\n"),
    }
}

// ---- for JSON

impl Tried<'_> {
    fn fields(&self) -> Vec<Field> {
        let e = ("e", self.by.to_string());
        if !self.all {
            return [vec![e], self.of_shot(&self.shots[0])].concat();
        }
        let (tried, unchanged) = (self.shots.len(), self.shots.len() - self.changing());
        let worst: Vec<String> = self.worst().iter().map(|shot| object(&self.of_shot(shot))).collect();
        vec![e, ("tried", tried.to_string()), ("unchanged", unchanged.to_string()), ("worst", format!("[{}]", worst.join(", ")))]
    }

    fn of_shot(&self, shot: &Shot) -> Vec<Field> {
        let scan = self.body.scan;
        let places = |voxels: &[usize]| format!("{:?}", voxels.iter().map(|&i| scan.place(i)).collect::<Vec<_>>());
        let way = |now: &Moved| {
            object(&[
                ("value", now.value.to_string()),
                ("differ", now.differ().to_string()),
                ("gone", places(&now.gone)),
                ("new", places(&now.new)),
                ("euler", now.euler.to_string()),
                ("opened", now.opened.len().to_string()),
            ])
        };
        let [lower, higher] = shot.moved.each_ref().map(way);
        let (voxel, value) = (format!("{:?}", scan.place(shot.index)), scan.values[shot.index].to_string());
        vec![("voxel", voxel), ("index", shot.index.to_string()), ("value", value), ("lower", lower), ("higher", higher)]
    }
}
