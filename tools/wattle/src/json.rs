//! A grid's result as one line of JSON.

use crate::amounts::Amounts;
use crate::body::Body;
use crate::frame::Frame;
use wattlerugby::{Refusal, Sides};

/// A name with its value, which is JSON.
pub type Field = (&'static str, String);

pub fn object(fields: &[Field]) -> String {
    let fields: Vec<String> = fields.iter().map(|(name, value)| format!("\"{name}\": {value}")).collect();
    format!("{{{}}}", fields.join(", "))
}

pub fn string(text: &str) -> String {
    let letter = |c: char| match c {
        '"' | '\\' => format!("\\{c}"),
        c if c.is_control() => format!("\\u{:04x}", u32::from(c)),
        c => c.to_string(),
    };
    format!("\"{}\"", text.chars().map(letter).collect::<String>())
}

pub fn of_refused(name: &str, refused: Refusal) -> Vec<Field> {
    vec![("file", string(name)), ("refused", refused.0.to_string()), ("reason", string(refused.reason()))]
}

/// The line's numbers, what they say of tunnels, and the volume: in voxels, and in cubic units where a voxel's size is known.
pub fn of_body(body: &Body, frame: &Frame) -> Vec<Field> {
    let (r, amounts, Sides { a, b, c }) = (body.grid.record(), Amounts::of(body), body.scan.sides);
    let (pieces, tunnels) = body.shape();
    let mut fields = vec![("file", string(&body.scan.name)), ("sides", format!("[{a}, {b}, {c}]"))];
    let numbers = [
        ("openings_allowed", r.allowed.into()),
        ("kept", amounts.kept as i64),
        ("removed", r.removals as i64),
        ("opened", r.openings.into()),
        ("examined", r.examinations as i64),
        ("euler", r.euler.into()),
        ("pieces", pieces as i64),
        ("tunnels", tunnels as i64),
        ("left_to_open", body.to_open() as i64),
        ("inside", amounts.inside as i64),
        ("gaps", amounts.gaps as i64),
        ("filled", amounts.filled as i64),
        ("filled_over_missing", amounts.filled_missing as i64),
        ("pinned", amounts.pinned as i64),
        ("unmeasured", amounts.unmeasured as i64),
    ];
    fields.extend(numbers.map(|(name, number)| (name, number.to_string())));
    fields.extend(body.coarse.map(|examined| ("coarse_examined", examined.to_string())));
    let cubic = [("volume", amounts.kept), ("volume_unmeasured", amounts.unmeasured)];
    fields.extend(cubic.into_iter().filter_map(|(name, voxels)| Some((name, frame.cubic(voxels)?.to_string()))));
    fields
}
