//! The grids that are measured: a sphere, a torus and white noise, those with gaps behind the face, and a stockpile, each fitted to the sides.

use crate::types::{narrowed, size, Sides, HURRIED, MISSING, PINNED, UNMARKED};
use wattlerugby::patch;

/// SplitMix64: a seed names a case for good.
pub struct Random(pub u64);

impl Random {
    pub fn word(&mut self) -> u64 {
        self.0 = self.0.wrapping_add(0x9E37_79B9_7F4A_7C15);
        let z = (self.0 ^ (self.0 >> 30)).wrapping_mul(0xBF58_476D_1CE4_E5B9);
        let z = (z ^ (z >> 27)).wrapping_mul(0x94D0_49BB_1331_11EB);
        z ^ (z >> 31)
    }

    pub fn below(&mut self, n: u64) -> u64 {
        self.word() % n
    }
}

#[derive(Clone, Copy, Debug, PartialEq, Eq)]
pub enum Shape {
    Sphere,
    Torus,
    Noise,
    /// Noise with every point measured.
    Measured,
    /// Noise full of gaps, many of them enclosed.
    Gapped,
    /// A closed shell of negative voxels, nothing measured within.
    Closed,
    /// The same with a hole in the shell, so that nothing is enclosed.
    Holed,
    /// A heap along an L, with nothing measured deep in it, and much air in the box around it.
    Stockpile,
}

impl Shape {
    /// The grids of every table but those of gaps.
    pub const ALL: [Shape; 3] = [Shape::Sphere, Shape::Torus, Shape::Noise];
    /// Without a missing point.
    pub const WHOLE: [Shape; 3] = [Shape::Sphere, Shape::Torus, Shape::Measured];
    /// Full of missing points.
    pub const GAPS: [Shape; 3] = [Shape::Gapped, Shape::Closed, Shape::Holed];
    /// The grids of coarse starts.
    pub const COARSE: [Shape; 4] = [Shape::Sphere, Shape::Torus, Shape::Noise, Shape::Stockpile];

    /// The shape of a name.
    pub fn named(name: &str) -> Option<Shape> {
        let all = [Shape::WHOLE, Shape::GAPS].into_iter().flatten().chain(Shape::COARSE);
        all.into_iter().find(|shape| shape.name() == name)
    }

    pub fn name(self) -> &'static str {
        match self {
            Shape::Sphere => "sphere",
            Shape::Torus => "torus",
            Shape::Noise => "noise",
            Shape::Measured => "measured noise",
            Shape::Gapped => "gapped noise",
            Shape::Closed => "closed cavity",
            Shape::Holed => "holed cavity",
            Shape::Stockpile => "stockpile",
        }
    }
}

/// So many in 100 measured negative, so many missing.
fn noise(random: &mut Random, negative: u64, missing: u64) -> i32 {
    match random.below(100) {
        p if p < negative => -1 - random.below(1000) as i32,
        p if p < negative + missing => MISSING,
        _ => random.below(1000) as i32,
    }
}

/// The shell is a sixteenth of the side thick, and so is what lies around it: at sides 16, 32 and 64 each kind of voxel has the same share of the grid,
/// so that a time for each voxel can be compared.
fn cavity([x, y, z]: [f64; 3], hole: bool) -> i32 {
    let out = x.abs().max(y.abs()).max(z.abs());
    // a sixteenth wide, through the shell's low face
    let shaft = (0.0..0.12).contains(&x) && (0.0..0.12).contains(&y) && (-0.89..0.0).contains(&z);
    match ((out - 0.89) * 3000.0) as i32 {
        _ if out < 0.76 || hole && shaft => MISSING,
        v => v,
    }
}

/// A ridge along an L, from which a heap falls off to the ground; no shot reaches its core, a twentieth of the side below the surface.
fn stockpile([x, y, z]: [f64; 3]) -> i32 {
    let along = |p: f64| (p - p.clamp(-0.5, 0.5)).abs();
    let from_ridge = (x + 0.5).hypot(along(y)).min(along(x).hypot(y - 0.5));
    match ((z + 3.0 * from_ridge - 0.1) / 10.0f64.sqrt()).max(-0.8 - z) {
        deep if deep < -0.1 => MISSING,
        out => (out * 3000.0) as i32,
    }
}

/// A signed value of a place in the cube from -1 to 1.
fn value(shape: Shape, [x, y, z]: [f64; 3], random: &mut Random) -> i32 {
    match shape {
        Shape::Sphere => (((x * x + y * y + z * z).sqrt() - 0.8) * 3000.0) as i32,
        Shape::Torus => ((((x * x + y * y).sqrt() - 0.6).hypot(z) - 0.3) * 3000.0) as i32,
        Shape::Noise => noise(random, 30, 5),
        Shape::Measured => noise(random, 30, 0),
        // few are not negative, so that many small gaps are enclosed; the great one that so many missing points make is open
        Shape::Gapped => noise(random, 57, 40),
        Shape::Closed => cavity([x, y, z], false),
        Shape::Holed => cavity([x, y, z], true),
        Shape::Stockpile => stockpile([x, y, z]),
    }
}

pub fn values(sides: Sides, shape: Shape) -> Vec<i32> {
    moved(sides, shape, [0.0; 3], Random(size(sides) as u64))
}

/// Another grid of a shape: other noise, or the body moved by less than a voxel along each axis, so that each has its own order of removals.
pub fn another(sides: Sides, shape: Shape, nth: u64) -> Vec<i32> {
    let mut random = Random(nth);
    let by = [sides.a, sides.b, sides.c].map(|side| random.below(1000) as f64 / 500.0 / (side - 1) as f64);
    moved(sides, shape, by, random)
}

/// A shape that lies so far further along each axis.
fn moved(sides: Sides, shape: Shape, by: [f64; 3], mut random: Random) -> Vec<i32> {
    let along = |v: usize, side: usize, by: f64| 2.0 * v as f64 / (side - 1) as f64 - 1.0 - by;
    let mut values = Vec::with_capacity(size(sides));
    for z in 0..sides.c {
        for y in 0..sides.b {
            for x in 0..sides.a {
                let v = value(shape, [along(x, sides.a, by[0]), along(y, sides.b, by[1]), along(z, sides.c, by[2])], &mut random);
                let border = x == 0 || y == 0 || z == 0 || x == sides.a - 1 || y == sides.b - 1 || z == sides.c - 1;
                values.push(match v {
                    // the greatest that 16 bits hold, as it was when values had no more: the grids are those of every earlier figure
                    MISSING if border => 32_767,
                    _ if border => v.abs(),
                    _ => v,
                });
            }
        }
    }
    values
}

/// The same grid with no negative voxel within two of its edge, as a coarse start wants it.
pub fn bordered(sides: Sides, mut values: Vec<i32>) -> Vec<i32> {
    let near = |p: usize, side: usize| p < 2 || p + 3 > side;
    for (i, value) in values.iter_mut().enumerate().filter(|(_, value)| **value != MISSING) {
        let (x, y, z) = (i % sides.a, i / sides.a % sides.b, i / (sides.a * sides.b));
        if near(x, sides.a) || near(y, sides.b) || near(z, sides.c) {
            *value = value.abs();
        }
    }
    values
}

/// The same grid in units a thousand times smaller: 16 bits do not hold its measured values.
pub fn lengthened(values: &[i32]) -> Vec<i32> {
    values.iter().map(|&v| if v == MISSING { v } else { 1000 * v }).collect()
}

/// A grid's file with the layers of a width each, 2 or 4 bytes a value, whichever the written form has. Narrow layers are of values that 16 bits
/// hold.
pub fn file(Sides { a, b, c }: Sides, allowed: u16, values: &[i32], width: impl Fn(usize) -> usize) -> Vec<u8> {
    let mut file = vec![0x56, 0x48, a as u8, b as u8, c as u8];
    file.extend(allowed.to_le_bytes());
    for (z, layer) in values.chunks_exact(a * b).enumerate() {
        if width(z) == 4 {
            file.extend([0x56, 0x57, z as u8]);
            file.extend(layer.iter().flat_map(|v| v.to_le_bytes()));
        } else {
            file.extend([0x56, 0x4C, z as u8]);
            file.extend(layer.iter().flat_map(|&v| narrowed(v).expect("16 bits hold it").to_le_bytes()));
        }
    }
    file
}

/// So many patch records for a grid of n voxels: any voxel, any value.
pub fn patches(n: usize, count: usize) -> Vec<u8> {
    let mut random = Random(n as u64);
    (0..count).flat_map(|_| patch(random.below(n as u64) as u32, random.word() as i16)).collect()
}

/// How the voxels of a grid are marked.
#[derive(Clone, Copy, Debug, PartialEq, Eq)]
pub enum Marks {
    None,
    AllHurried,
    OneInTenPinned,
}

impl Marks {
    pub const ALL: [Marks; 3] = [Marks::None, Marks::AllHurried, Marks::OneInTenPinned];

    pub fn name(self) -> &'static str {
        match self {
            Marks::None => "none",
            Marks::AllHurried => "every voxel hurried",
            Marks::OneInTenPinned => "one in ten pinned",
        }
    }

    /// A mark for each voxel; which ones are pinned is drawn.
    pub fn of(self, sides: Sides) -> Vec<u8> {
        let mut random = Random(size(sides) as u64);
        let mut mark = || match self {
            Marks::None => UNMARKED,
            Marks::AllHurried => HURRIED,
            Marks::OneInTenPinned if random.below(10) == 0 => PINNED,
            Marks::OneInTenPinned => UNMARKED,
        };
        (0..size(sides)).map(|_| mark()).collect()
    }
}

/// The distances of a crafted state.
#[derive(Clone, Copy, Debug, PartialEq, Eq)]
pub enum Distances {
    Random,
    Taxicab,
    Equal,
}

impl Distances {
    pub const ALL: [Distances; 3] = [Distances::Random, Distances::Taxicab, Distances::Equal];

    pub fn name(self) -> &'static str {
        match self {
            Distances::Random => "random",
            Distances::Taxicab => "taxicab",
            Distances::Equal => "equal",
        }
    }
}

/// Distances and status bytes of a grid whose every voxel is pending, save those on the border: fit, and nothing that begin makes.
pub fn pending(sides: Sides, distances: Distances) -> (Vec<i32>, Vec<u8>) {
    let mut random = Random(size(sides) as u64);
    let (mut dist, mut status) = (Vec::with_capacity(size(sides)), Vec::with_capacity(size(sides)));
    for z in 0..sides.c {
        for y in 0..sides.b {
            for x in 0..sides.a {
                let from_middle = x.abs_diff(sides.a / 2) + y.abs_diff(sides.b / 2) + z.abs_diff(sides.c / 2);
                dist.push(match distances {
                    Distances::Random => random.below(1 << 31) as i32,
                    Distances::Taxicab => from_middle as i32,
                    Distances::Equal => 5,
                });
                let border = x == 0 || y == 0 || z == 0 || x == sides.a - 1 || y == sides.b - 1 || z == sides.c - 1;
                status.push(if border { 0 } else { 3 });
            }
        }
    }
    (dist, status)
}

/// Random status bytes, so many in 100 kept.
pub fn statuses(count: usize, kept: u64) -> Vec<u8> {
    let mut random = Random(kept);
    (0..count).map(|_| if random.below(100) < kept { 1 + 2 * (random.word() & 1) as u8 } else { 0 }).collect()
}

/// The status bytes of random blocks, 27 to a block.
pub fn blocks(count: usize, kept: u64) -> Vec<u8> {
    statuses(27 * count, kept)
}

/// So many voxels of a grid that are not on its border, drawn one by one.
pub fn inner(sides: Sides, count: usize) -> Vec<u32> {
    let mut random = Random(count as u64);
    let mut within = |side: usize| 1 + random.below(side as u64 - 2) as usize;
    (0..count).map(|_| (within(sides.a) + sides.a * (within(sides.b) + sides.b * within(sides.c))) as u32).collect()
}
