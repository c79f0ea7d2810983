//! Grids of the kinds that carving meets: bodies with noise, thin walls, islands, pockets, ties, missing points, thick walls with gaps in them, and
//! bodies of few voxels far from the border, for coarse starts.

use crate::random::Random;
use crate::records::{GREATEST, LEAST, MISSING};
use reference::grid::Sides;

pub struct Grid {
    pub sides: [usize; 3],
    pub allowed: u16,
    pub values: Vec<i32>,
}

type Place = [f64; 3];

/// The kinds of grids; each is a signed distance, in tenths, of a place in the unit cube about the origin.
const KINDS: [&str; 8] = ["sphere", "torus", "shell", "islands", "walls", "noise", "equal", "block"];

fn shape(kind: &str, p: Place, r: &mut Random) -> f64 {
    let [x, y, z] = p;
    let length = |a: f64, b: f64, c: f64| (a * a + b * b + c * c).sqrt();
    match kind {
        "sphere" => length(x, y, z) - 0.6,
        "torus" => length(length(x, y, 0.0) - 0.5, z, 0.0) - 0.22,
        "shell" => (length(x, y, z) - 0.55).abs() - 0.18,
        "islands" => length(x - 0.4, y - 0.4, z).min(length(x + 0.4, y + 0.4, z)).min(length(x + 0.4, y - 0.4, z)) - 0.25,
        "walls" => {
            let box_distance = x.abs().max(y.abs()).max(z.abs());
            let pocket = length(x, y, z) - 0.3;
            (box_distance - 0.7).max(-pocket)
        }
        "noise" => r.between(-100, 60) as f64 / 100.0,
        "equal" => {
            if r.chance(35) {
                -0.1
            } else {
                0.1
            }
        }
        _ => x.abs().max(y.abs()).max(z.abs()) - 0.5,
    }
}

fn side(r: &mut Random, greatest: i64) -> usize {
    if r.chance(20) {
        3
    } else {
        r.between(3, greatest) as usize
    }
}

/// A grid that begin mostly accepts: no measured negative voxel on the border, save rarely.
pub fn grid(r: &mut Random, greatest: i64) -> Grid {
    let sides = [side(r, greatest), side(r, greatest), side(r, greatest)];
    let kind = r.pick(&KINDS);
    let scale = r.pick(&[1.0, 10.0, 100.0, 1000.0, 30000.0]);
    let noise = r.pick(&[0, 0, 5, 20, 60]);
    let gaps = r.pick(&[0, 0, 3, 25]);
    let mut values = Vec::new();
    for i in 0..sides[0] * sides[1] * sides[2] {
        let v = [i % sides[0], i / sides[0] % sides[1], i / (sides[0] * sides[1])];
        let place: Vec<f64> = (0..3).map(|k| 2.0 * v[k] as f64 / (sides[k] - 1) as f64 - 1.0).collect();
        let mut d = shape(kind, [place[0], place[1], place[2]], r) + r.between(-noise, noise) as f64 / 100.0;
        let border = (0..3).any(|k| v[k] == 0 || v[k] == sides[k] - 1);
        if border && !r.rarely() {
            d = d.abs();
        }
        let value = (d * scale).round().clamp(-32767.0, 32767.0) as i32;
        values.push(if r.chance(gaps) { MISSING } else { value });
    }
    let allowed = r.pick(&[0, 0, 1, 2, 3, 10, 1000, 65535]);
    Grid { sides, allowed, values }
}

/// Such a grid with its values stretched, mostly beyond 16 bits, and some of them at the ends of both ranges.
pub fn stretched(r: &mut Random, greatest: i64) -> Grid {
    let mut g = grid(r, greatest);
    let factor = r.pick(&[1, 40, 1000, 33_333, 1_000_000]);
    let some = r.pick(&[0, 0, 2, 10]);
    let [a, b, c] = g.sides.map(|side| side as u64);
    let sides = Sides { a, b, c };
    for (i, value) in g.values.iter_mut().enumerate().filter(|(_, value)| **value != MISSING) {
        *value = (i64::from(*value) * factor).clamp(LEAST.into(), GREATEST.into()) as i32;
        if r.chance(some) {
            *value = r.pick(&[LEAST, GREATEST, -32_768, 32_768, 32_767, -32_767, 65_536, -65_536]);
        }
        if sides.border(i) {
            *value = value.abs();
        }
    }
    g
}

/// The forms of thick bodies: up to the border, round, in two parts, about a hollow of missing points, and with corners cut off.
const BODIES: [&str; 6] = ["block", "ball", "halves", "hollow", "cut", "cut"];

/// A thick body with so many in a hundred of its voxels missing, and few of 0 or more, and then some voxels that no shot reached, walled all around:
/// some of its gaps are closed, others not.
pub fn walled(r: &mut Random, greatest: i64) -> Grid {
    let sides = [0; 3].map(|_| r.between(5, greatest.max(5)) as usize);
    let (body, range) = (r.pick(&BODIES), r.pick(&[1, 4, 1000]));
    let (missing, holes, outside) = (r.pick(&[3, 10, 20, 35]), r.pick(&[0, 0, 1, 3]), r.pick(&[0, 10, 50, 100]));
    let middle = sides[0] / 2 + r.below(2) as usize;
    let cuts = [0; 2].map(|_| sides.map(|side| r.between(1, side as i64 - 2) as usize));
    let mut values = Vec::new();
    for i in 0..sides[0] * sides[1] * sides[2] {
        let v = [i % sides[0], i / sides[0] % sides[1], i / (sides[0] * sides[1])];
        let depth = (0..3).map(|k| v[k].min(sides[k] - 1 - v[k])).min().unwrap_or(0);
        let from_middle = (0..3).map(|k| 2.0 * v[k] as f64 / (sides[k] - 1) as f64 - 1.0).map(|x| x * x).sum::<f64>();
        let within = match body {
            _ if depth == 0 => false,
            "ball" => from_middle < 0.9,
            "halves" => v[0] != middle,
            "cut" => !((0..3).all(|k| v[k] <= cuts[0][k]) || (0..3).all(|k| v[k] >= cuts[1][k])),
            _ => true,
        };
        let (hollow, size) = (body == "hollow" && depth == 2, r.between(1, range) as i32);
        values.push(match within {
            true if hollow || r.chance(missing) => MISSING,
            true if r.chance(holes) => size - 1,
            true => -size,
            false if r.chance(if depth == 0 { outside } else { outside / 4 }) => MISSING,
            false => size - i32::from(r.chance(20)),
        });
    }
    let [a, b, c] = sides.map(|side| side as u64);
    let grid = Sides { a, b, c };
    for _ in 0..r.pick(&[0, 1, 1, 3]) {
        let gap = grid.index(sides.map(|side| r.between(2, side as i64 - 3))).expect("a voxel within the border");
        values[gap] = MISSING;
        for beside in grid.face_neighbours(gap).into_iter().flatten().filter(|_| r.chance(97)) {
            values[beside] = if values[beside] == MISSING { MISSING } else { -1 - values[beside].abs() % 5 };
        }
    }
    Grid { sides, allowed: r.pick(&[0, 1, 3, 65535]), values }
}

/// The bodies of coarse starts: paths of single voxels, scattered voxels, whole blocks, rings about a hole, and thick ones with gaps.
const THIN: [&str; 6] = ["paths", "paths", "scattered", "blocks", "rings", "thick"];

/// A grid that a coarse start mostly takes: sides are even and from 6 on, and no negative voxel is near the border. Its box has many blocks that go.
pub fn coarse(r: &mut Random, greatest: i64) -> Grid {
    let sides = [0; 3].map(|_| 2 * r.between(3, greatest / 2) as usize);
    let grid = Sides { a: sides[0] as u64, b: sides[1] as u64, c: sides[2] as u64 };
    let (body, range, missing) = (r.pick(&THIN), r.pick(&[1, 4, 1000, 1_000_000]), r.pick(&[0, 0, 3, 20]));
    let mut values: Vec<i32> = (0..grid.n()).map(|_| r.between(0, range) as i32).collect();
    (0..grid.n()).filter(|_| r.chance(missing)).collect::<Vec<_>>().into_iter().for_each(|i| values[i] = MISSING);
    let any = |r: &mut Random| sides.map(|side| r.between(2, side as i64 - 3));
    let mut put = |v: [i64; 3], value: i32| values[grid.index(v).expect("a voxel of the grid")] = value;
    let within = |v: [i64; 3]| (0..3).all(|k| v[k] >= 2 && v[k] <= sides[k] as i64 - 3);
    match body {
        "scattered" => {
            for _ in 0..r.between(2, 40) {
                put(any(r), -(r.between(1, range.max(1)) as i32));
            }
        }
        "blocks" => {
            for _ in 0..r.between(1, 6) {
                let corner = any(r).map(|x| x / 2 * 2);
                (0..8).for_each(|o| put([corner[0] + o % 2, corner[1] + o / 2 % 2, corner[2] + o / 4], -1 - o as i32));
            }
        }
        "rings" => {
            let (z, [x, y, _]) = (any(r)[2], any(r));
            for k in 0..sides[0].max(sides[1]) as i64 {
                let ends = [[k, 2, z], [k, sides[1] as i64 - 3, z], [2, k, z], [sides[0] as i64 - 3, k, z], [x, y, k]];
                ends.into_iter().filter(|&v| within(v)).for_each(|v| put(v, -3));
            }
        }
        "thick" => {
            let (dense, holes) = (r.pick(&[60, 90, 98]), r.pick(&[0, 5, 20]));
            for v in (0..grid.n()).map(|i| grid.coordinates(i)).filter(|&v| within(v)) {
                if r.chance(dense) {
                    put(v, if r.chance(holes) { MISSING } else { -(r.between(1, 9) as i32) });
                }
            }
        }
        _ => {
            let mut v = any(r);
            for _ in 0..r.between(1, 60) {
                put(v, -(r.between(1, range.max(1)) as i32));
                let axis = r.below(3) as usize;
                v[axis] = (v[axis] + r.between(-1, 1)).clamp(2, sides[axis] as i64 - 3);
            }
        }
    }
    if r.chance(3) {
        let v = sides.map(|side| r.between(1, side as i64 - 2));
        put(v, -1);
    }
    Grid { sides, allowed: r.pick(&[0, 0, 1, 2, 10, 65535]), values }
}
