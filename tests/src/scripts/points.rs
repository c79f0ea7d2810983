//! Surface points by the thousand: finished grids with distances of every size, asked along every axis on both sides of each negative voxel, and
//! all of them in one call, and in several, each going on where the one before it ended.

use crate::random::Random;
use reference::grid::Sides;

/// Long along each axis in turn, since a point's rounding depends on its coordinate.
const LONG: [[u64; 3]; 5] = [[64, 5, 4], [5, 64, 4], [4, 5, 64], [9, 10, 11], [12, 12, 12]];
/// Coordinates of 2, 3 and 4 with t below a half are where the sum of two rounded steps most often misses the point rounded once.
const SHORT: [[u64; 3]; 14] = [
    [7, 7, 7],
    [6, 7, 8],
    [8, 6, 7],
    [7, 8, 6],
    [8, 7, 6],
    [7, 6, 8],
    [6, 8, 7],
    [7, 7, 7],
    [8, 8, 6],
    [6, 8, 8],
    [8, 6, 8],
    [7, 7, 6],
    [6, 7, 7],
    [7, 6, 7],
];

/// A distance of one of some sizes: as measured values are, as worked ones, as any 32-bit number, and at the ends.
fn distance(r: &mut Random) -> i32 {
    match r.below(6) {
        0 => r.between(-9, 9) as i32,
        1 | 2 => r.between(-3000, 3000) as i32,
        3 | 4 => r.word() as i32,
        _ => r.pick(&[i32::MIN, i32::MIN, i32::MIN + 1, -1, 0, 0, 1, i32::MAX - 1, i32::MAX]),
    }
}

/// A small p against a large q.
fn steep(r: &mut Random) -> i32 {
    if r.chance(50) {
        -(r.between(1, 1 << 20) as i32)
    } else {
        r.between(1 << 20, i64::from(i32::MAX)) as i32
    }
}

/// Whether a position, 3 index + axis, has a point.
fn crosses(sides: &Sides, dist: &[i32], position: usize) -> bool {
    let mut there = sides.coordinates(position / 3);
    there[position % 3] += 1;
    sides.index(there).is_some_and(|next| (dist[position / 3] < 0) != (dist[next] < 0))
}

fn script(number: u64, [a, b, c]: [u64; 3], distance: fn(&mut Random) -> i32) -> String {
    let mut r = Random::new(number);
    let sides = Sides { a, b, c };
    let mut dist: Vec<i32> = (0..sides.n()).map(|_| distance(&mut r)).collect();
    for (i, d) in dist.iter_mut().enumerate() {
        *d = if *d < 0 && sides.border(i) { !*d } else { *d };
    }
    let status: Vec<u8> = dist.iter().map(|&d| u8::from(d < 0)).collect();
    let words = |list: Vec<String>| list.join(" ");
    let mut text = format!("# points of a grid of {a}, {b}, {c}\nsides {a} {b} {c}\n");
    for (field, value) in
        [("a", a), ("b", b), ("c", c), ("T", 0), ("openings", 0), ("removals", 0), ("examinations", 0), ("euler", 1), ("finished", 1)]
    {
        text += &format!("rec {field} {value}\n");
    }
    text += &format!("dist list {}\n", words(dist.iter().map(i32::to_string).collect()));
    text += &format!("status list {}\n", words(status.iter().map(u8::to_string).collect()));
    // Crossing writes nothing: one hash of each grid before and after says so, and the lines stay short.
    text += "crossing 0 0\nautohash 0\n";
    let strides = [1, a as usize, (a * b) as usize];
    for i in (0..dist.len()).filter(|&i| dist[i] < 0) {
        for (axis, stride) in strides.into_iter().enumerate() {
            let (below, above) = (dist[i - stride] >= 0, dist[i + stride] >= 0);
            if below {
                text += &format!("crossing {} {axis}\n", i - stride);
            }
            if above && r.chance(40) {
                text += &format!("crossing {i} {axis}\n");
            }
            if !above && r.chance(5) {
                text += &format!("crossing {i} {axis}\n");
            }
        }
    }
    let count = (0..3 * dist.len()).filter(|&p| crosses(&sides, &dist, p)).count();
    text += &format!("points 0 {}\npoints 0 {}\n", 3 * count, 3 * count + 7);
    let (mut position, room) = (0, count as u64 / r.between(2, 4) as u64 + 1);
    while position < 3 * dist.len() {
        let capacity = 3 * room + r.below(3);
        text += &format!("points {position} {capacity}\n");
        let mut left = room;
        while position < 3 * dist.len() && left > 0 {
            left -= u64::from(crosses(&sides, &dist, position));
            position += 1;
        }
    }
    text + "autohash 1\ncrossing 0 0\n"
}

pub fn scripts() -> Vec<String> {
    let long = LONG.iter().zip(1..).map(|(&sides, number)| script(number, sides, distance));
    long.chain(SHORT.iter().zip(21..).map(|(&sides, number)| script(number, sides, steep))).collect()
}
