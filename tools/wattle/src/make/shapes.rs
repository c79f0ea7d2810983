//! Simple bodies about the grid's middle. All is whole numbers in tenths of a voxel, and roots are rounded down, so a shape, its sides, noise
//! and seed are the same file on every machine.

use super::Made;
use crate::args::Args;
use crate::Failure;
use wattlerugby::{Sides, MISSING};

const SHAPES: [&str; 4] = ["sphere", "torus", "wall", "tunnel"];
/// Along each axis unless `--sides` says otherwise: the most that the program takes.
const SIDE: usize = 24;
/// Fewer voxels leave a torus no hole.
const LEAST_SIDE: usize = 12;
/// How far the body stays from the outermost voxels.
const RIM: i64 = 15;

pub fn shape(args: &Args, shape: &str, sides: Option<Sides>) -> Result<Made, Failure> {
    if !SHAPES.contains(&shape) {
        return Err(Failure::unusable(format!("there is no shape {shape}; the shapes are {}", SHAPES.join(", "))));
    }
    let sides = sides.unwrap_or(Sides { a: SIDE, b: SIDE, c: SIDE });
    if [sides.a, sides.b, sides.c].iter().any(|&side| side < LEAST_SIDE) {
        return Err(Failure::unusable(format!("a shape takes sides from {LEAST_SIDE} to 64")));
    }
    let noise = args.number("--noise", 0, 1000)?.unwrap_or(0) as i64;
    let missing = args.number("--missing", 0, 100)?.unwrap_or(0) as u64;
    let mut random = Random(args.seed()?.unwrap_or(1).into());
    let voxels = (0..sides.a * sides.b * sides.c).map(|i| [i % sides.a, i / sides.a % sides.b, i / (sides.a * sides.b)]);
    let values = voxels.map(|place| {
        // both are drawn for every voxel, so that one option does not change what the other does
        let (shift, chance) = ((random.next() % (2 * noise as u64 + 1)) as i64 - noise, random.next() % 100);
        match place.iter().zip([sides.a, sides.b, sides.c]).any(|(&p, side)| p == 0 || p + 1 == side) {
            // as scanned, so that noise alone does not have the grid refused
            true => distance(shape, sides, place) as i32,
            false if chance < missing => MISSING,
            false => (distance(shape, sides, place) + shift) as i32,
        }
    });
    Ok(Made { sides, values: values.collect() })
}

/// How far the voxel lies from the body's surface, negative inside.
fn distance(shape: &str, Sides { a, b, c }: Sides, [x, y, z]: [usize; 3]) -> i64 {
    let from_middle = |p: usize, side: usize| 10 * p as i64 - 5 * (side as i64 - 1);
    let room = |side: usize| 5 * (side as i64 - 1) - RIM;
    let (across, height) = (room(a.min(b)), room(c));
    let (u, v, w) = (from_middle(x, a), from_middle(y, b), from_middle(z, c));
    let from_axis = root(u * u + v * v);
    match shape {
        "sphere" => root(u * u + v * v + w * w) - across.min(height),
        "torus" => {
            let tube = (across / 3).min(height);
            root((from_axis - (across - tube)).pow(2) + w * w) - tube
        }
        "wall" => (u.abs() - room(a)).max(v.abs() - room(b)).max(w.abs() - height / 2),
        _ => (from_axis - across).max(across / 2 - from_axis).max(w.abs() - height),
    }
}

/// The square root, rounded down.
fn root(square: i64) -> i64 {
    let mut root = 0;
    for bit in (0..16).rev().map(|bit| 1 << bit) {
        if (root + bit) * (root + bit) <= square {
            root += bit;
        }
    }
    root
}

/// SplitMix64 (Steele, Lea and Flood, 2014).
struct Random(u64);

impl Random {
    fn next(&mut self) -> u64 {
        self.0 = self.0.wrapping_add(0x9E37_79B9_7F4A_7C15);
        let mixed = (self.0 ^ self.0 >> 30).wrapping_mul(0xBF58_476D_1CE4_E5B9);
        let mixed = (mixed ^ mixed >> 27).wrapping_mul(0x94D0_49BB_1331_11EB);
        mixed ^ mixed >> 31
    }
}
