//! `wattle points`: where the body's surface crosses from voxel to voxel.

use crate::args::Args;
use crate::body::{Body, Kind};
use crate::file::{refusal, Scan};
use crate::frame::Frame;
use crate::start::Start;
use crate::{Answer, Failure};
use std::fmt::Write;
use wattlerugby::{Point, Sides, MISSING};

/// A point, and what it rests on, which gives its colour: `Inside` where both voxels beside it were measured, `Pinned` where its inner one
/// is pinned, `FilledMissing` where a range point is missing, `Filled` where the surface is assumed otherwise.
pub struct SurfacePoint {
    pub at: Point,
    pub rests_on: Kind,
}

impl SurfacePoint {
    fn place(&self, frame: &Frame) -> [f64; 3] {
        frame.at([self.at.x, self.at.y, self.at.z])
    }
}

pub fn points(args: &Args) -> Result<Answer, Failure> {
    let (format, frame) = (args.format(["--ply", "--xyz"])?, Frame::of(args)?);
    let scan = Scan::open(&args.files[0])?.allowing(args)?;
    let body = Body::carve(&scan, Start::of(args, &scan)?).map_err(|refused| refusal(&scan.name, refused))?;
    body.note();
    let points = surface(&body);
    let text = if format == "--ply" { ply(&body, &points, &frame) } else { xyz(&points, &frame) };
    // text, but no text to read: it goes to a terminal only by mistake
    Ok(Answer::file(text.into_bytes()))
}

/// All points of the surface, by index and then by axis.
pub fn surface(body: &Body) -> Vec<SurfacePoint> {
    let points: Vec<Point> = body.grid.points().expect("the grid is finished").collect();
    let pairs = pairs(body);
    assert_eq!(points.len(), pairs.len(), "a point lies between two voxels of which one is of the body");
    let resting = |(at, (inner, outer))| SurfacePoint { at, rests_on: basis(body, inner, outer) };
    points.into_iter().zip(pairs).map(resting).collect()
}

/// Each voxel with the next along an axis, where one is of the body and the other not: that one first. In the order of the points.
fn pairs(body: &Body) -> Vec<(usize, usize)> {
    let Sides { a, b, c } = body.scan.sides;
    let dist = body.grid.distances();
    let mut pairs = Vec::new();
    for index in 0..dist.len() {
        for (axis, (step, side)) in [(1, a), (a, b), (a * b, c)].into_iter().enumerate() {
            let has_next = body.scan.place(index)[axis] + 1 < side;
            if has_next && (dist[index] < 0) != (dist[index + step] < 0) {
                let next = index + step;
                pairs.push(if dist[index] < 0 { (index, next) } else { (next, index) });
            }
        }
    }
    pairs
}

/// A point is measured where its inner voxel is inside and its outer one's value is 0 or more; any other only says between which voxels
/// the surface runs (docs/RESULT.md). No point lies beside a gap counted as inside: all that shares a face with it is inside too.
fn basis(body: &Body, inner: usize, outer: usize) -> Kind {
    match (body.kinds[inner], body.scan.values[outer]) {
        (Kind::Pinned, _) => Kind::Pinned,
        (Kind::FilledMissing, _) | (_, MISSING) => Kind::FilledMissing,
        (Kind::Inside, 0..) => Kind::Inside,
        _ => Kind::Filled,
    }
}

/// A number is written as the shortest decimal that reads back as the same double. CloudCompare takes a property whose name begins with
/// `scalar_` as a field to colour by.
fn ply(body: &Body, points: &[SurfacePoint], frame: &Frame) -> String {
    let mut text = format!(
        "ply\nformat ascii 1.0\ncomment {}: {}\ncomment {}, {}; scalar_measured is 0 where the surface is assumed\n\
         element vertex {}\nproperty double x\nproperty double y\nproperty double z\n\
         property uchar red\nproperty uchar green\nproperty uchar blue\nproperty uchar scalar_measured\nend_header\n",
        body.scan.name,
        body.line(),
        body.scan.allowed_told(),
        frame.told(),
        points.len()
    );
    for point in points {
        let ([x, y, z], [r, g, b]) = (point.place(frame), point.rests_on.colour());
        writeln!(text, "{x} {y} {z} {r} {g} {b} {}", u8::from(point.rests_on == Kind::Inside)).expect("a text takes any line");
    }
    text
}

fn xyz(points: &[SurfacePoint], frame: &Frame) -> String {
    let mut text = String::new();
    for [x, y, z] in points.iter().map(|point| point.place(frame)) {
        writeln!(text, "{x} {y} {z}").expect("a text takes any line");
    }
    text
}
