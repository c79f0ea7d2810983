//! Grids on which begin's steps and the carving machine's choices can go wrong one at a time; and grids of the greatest sides.

use super::filling::{greatest_gap, most_gaps};
use super::marking::greatest_marked;
use crate::records::{written_length, GREATEST, LEAST, MISSING, WIDE};
use reference::grid::Sides;

/// What the grid is for, its sides, the value everywhere, and the voxels that differ.
type Shape = (&'static str, [usize; 3], i32, &'static [([usize; 3], i32)]);

const SHAPES: &[Shape] = &[
    ("M is at least 1: zeros beside S", [5, 5, 5], 0, &[([2, 2, 2], -5)]),
    ("M is at least 1: missing points beside S", [5, 5, 5], MISSING, &[([2, 2, 2], -5)]),
    ("M is at least 1: both", [5, 6, 4], MISSING, &[([2, 2, 2], -5), ([1, 2, 2], 0), ([2, 3, 2], 0)]),
    (
        "M comes from voxels that share a face with S",
        [5, 5, 5],
        9,
        &[([2, 2, 2], -1), ([1, 2, 2], 3), ([3, 2, 2], 2), ([2, 1, 2], 3), ([2, 3, 2], 0), ([2, 2, 1], 1), ([2, 2, 3], 3)],
    ),
    (
        "M does not come from beside a discarded group",
        [9, 4, 5],
        7,
        &[([1, 1, 1], -1), ([2, 1, 1], -1), ([6, 2, 3], -1), ([7, 2, 3], 900), ([6, 2, 2], 800)],
    ),
    (
        "of equal groups the one with the smallest index",
        [9, 5, 4],
        3,
        &[([6, 1, 1], -2), ([7, 1, 1], -2), ([2, 1, 2], -2), ([1, 2, 2], -2)],
    ),
    ("the largest group comes last", [9, 7, 5], 4, &[([1, 1, 1], -9), ([4, 3, 1], -9), ([7, 5, 3], -1), ([6, 5, 3], -1)]),
    ("groups join at a corner", [6, 6, 5], 2, &[([1, 1, 1], -3), ([2, 2, 2], -3), ([3, 3, 3], -3), ([4, 1, 1], -3), ([4, 2, 1], -3)]),
    ("d is not measured to discarded voxels", [10, 4, 4], 5, &[([1, 1, 1], -4), ([2, 1, 1], -4), ([6, 1, 2], -4)]),
    (
        "a discarded voxel within the box",
        [7, 7, 7],
        6,
        &[
            ([1, 1, 1], -2),
            ([2, 1, 1], -2),
            ([3, 1, 1], -2),
            ([4, 1, 1], -2),
            ([5, 1, 1], -2),
            ([5, 2, 1], -2),
            ([5, 3, 1], -2),
            ([5, 4, 1], -2),
            ([5, 5, 1], -2),
            ([5, 5, 2], -2),
            ([5, 5, 3], -2),
            ([5, 5, 4], -2),
            ([5, 5, 5], -2),
            ([2, 4, 3], -30),
        ],
    ),
    (
        "ends of the measured values",
        [5, 4, 6],
        32767,
        &[([1, 1, 1], -32767), ([2, 1, 1], -1), ([2, 2, 2], -32767), ([0, 0, 0], MISSING), ([3, 2, 4], 0)],
    ),
    (
        "a missing point is not negative",
        [5, 5, 5],
        8,
        &[([1, 1, 1], MISSING), ([2, 1, 1], MISSING), ([3, 3, 3], -8), ([0, 2, 2], MISSING), ([2, 3, 3], MISSING), ([2, 2, 2], MISSING)],
    ),
    ("a zero is outside", [6, 5, 5], 1, &[([1, 1, 1], -1), ([2, 1, 1], 0), ([3, 1, 1], -1), ([4, 2, 1], -1)]),
    (
        "ties: equal distances everywhere",
        [7, 6, 5],
        1,
        &[
            ([1, 1, 1], -1),
            ([5, 1, 1], -1),
            ([1, 4, 1], -1),
            ([5, 4, 3], -1),
            ([3, 2, 2], -1),
            ([2, 1, 1], -1),
            ([2, 2, 2], -1),
            ([4, 1, 1], -1),
            ([4, 3, 2], -1),
            ([5, 4, 2], -1),
        ],
    ),
    (
        "a plate with a hole, then a handle",
        [8, 7, 5],
        5,
        &[
            ([1, 1, 2], -3),
            ([2, 1, 2], -3),
            ([3, 1, 2], -3),
            ([4, 1, 2], -3),
            ([5, 1, 2], -3),
            ([6, 1, 2], -3),
            ([1, 2, 2], -3),
            ([6, 2, 2], -3),
            ([1, 3, 2], -3),
            ([6, 3, 2], -3),
            ([1, 4, 2], -3),
            ([6, 4, 2], -3),
            ([1, 5, 2], -3),
            ([2, 5, 2], -3),
            ([3, 5, 2], -3),
            ([4, 5, 2], -3),
            ([5, 5, 2], -3),
            ([6, 5, 2], -3),
            ([3, 2, 3], -3),
            ([3, 3, 3], -3),
            ([3, 4, 3], -3),
            ([3, 2, 1], 9),
            ([4, 3, 2], 1),
        ],
    ),
];

fn listed(values: &[i32]) -> String {
    values.iter().map(i32::to_string).collect::<Vec<_>>().join(" ")
}

/// One examination at a time for a while, then turns of carving and opening to the end, with every byte of the buffers on the way.
const CALLS: &str = "begin\ndump dist\ndump status\ncarve 0\ncarve 1\ncarve 1\ncarve 1\ncarve 2\ncarve 3\ndump status\ncarve 4294967295\nopen\ncarve 1\n\
                     carve 4294967295\nopen\ncarve 4294967295\nopen\ncarve 4294967295\nopen\ncarve 4294967295\nopen\ncarve 4294967295\nfinish\n\
                     dump dist\npoints 0 1200\n";

fn script(shape: &Shape) -> String {
    let (what, [a, b, c], fill, voxels) = *shape;
    let mut values = vec![fill; a * b * c];
    for ([x, y, z], value) in voxels {
        values[x + a * (y + b * z)] = *value;
    }
    format!("# {what}\nsides {a} {b} {c}\nT 65535\nvalues list {}\n{CALLS}", listed(&values))
}

/// A frame at z = 32 in 64 x 64 x 64, and a bridge over it: a plate of many voxels that do not pass, then tunnels. Set voxel by voxel, as the
/// whole list would be long.
fn greatest() -> String {
    let mut text = "# 64 voxels a side\nsides 64 64 64\nT 2\nvalues fill 30000\n".to_string();
    let mut set = |x: usize, y: usize, z: usize, value: i32| text += &format!("values set {} {value}\n", x + 64 * (y + 64 * z));
    for k in 1..=62 {
        for (x, y) in [(k, 1), (k, 62), (1, k), (62, k)] {
            set(x, y, 32, -7);
        }
    }
    for k in 2..=61 {
        set(k, 31, 32 + (k - 1).min(62 - k).min(9), -5 - k as i32);
    }
    set(30, 30, 30, -1);
    set(62, 62, 62, MISSING);
    text + "begin\ncarve 5\ntake 168001\ncarve 65536\nopen\ntake 0\ncarve 4294967295\nopen\ncarve 4294967295\nopen\nfinish\ncrossing 131138 0\n\
            crossing 131137 0\ncrossing 127041 2\ncrossing 262143 2\ncrossing 262144 0\n\
            points 0 120000\npoints 393413 30\npoints 393420 3001\npoints 786431 3\npoints 786432 3\npoints 786433 3\n"
}

/// The greatest worked distances that begin leaves, its points, whose p + q is over 31 bits, and the longest file that is written, of 1,048,775 bytes.
fn greatest_values() -> String {
    let voxel = |x: usize, y: usize, z: usize| x + 64 * (y + 64 * z);
    let mut text = format!("# 64 voxels a side, with the greatest values\nsides 64 64 64\nT 2\nvalues fill {GREATEST}\n");
    for k in 1..=62 {
        text += &format!("values set {} {LEAST}\nvalues set {} -{}\n", voxel(k, 1, 1), voxel(1, k, 2), 16_000_000 * k);
    }
    let length = written_length(&Sides { a: 64, b: 64, c: 64 }, WIDE);
    text + &format!(
        "values set {} {MISSING}\nbegin\ncarve 5\ncarve 4294967295\nopen\ncarve 4294967295\nfinish\ncrossing {} 0\ncrossing {} 1\ncrossing 0 0\n\
         points 0 3000\nwrite {}\nwrite {length}\nreadlayer {}\nvalues fill 0\nread\nwrite {}\nprogram\n",
        voxel(63, 63, 63),
        voxel(62, 1, 1),
        voxel(1, 62, 2),
        length - 1,
        length - (3 + 4 * 64 * 64),
        length + 5,
    )
}

/// A row along each axis of the longest grids that are not cubes.
fn long(sides: [usize; 3]) -> String {
    let [a, b, c] = sides;
    let mut text = format!("# sides of {a}, {b}, {c}\nsides {a} {b} {c}\nT 9\nvalues fill 12\n");
    let length = a.max(b).max(c) - 2;
    for k in 0..length {
        let [x, y, z] = [a, b, c].map(|side| 1 + (k * (side - 2)) / length);
        text += &format!("values set {} {}\n", x + a * (y + b * z), -1 - (k % 11) as i32);
    }
    text + "begin\ncarve 1\ncarve 7\ncarve 4294967295\nopen\ncarve 4294967295\nopen\ncarve 70000\nfinish\npoints 0 3000\npoints 500 20\n"
}

/// Openings at voxels that begin's own grids seldom leave: a link between two, three and six parts, a voxel by itself, one that passes, a wall.
const OPENINGS: &[(&str, &str)] = &[
    ("a link of two", "values set 61 -5\nvalues set 62 -5\nvalues set 63 -5\nbegin\ndist set 62 5\nopen\nopen\n"),
    (
        "a link of six",
        "values set 61 -5\nvalues set 63 -5\nvalues set 57 -5\nvalues set 67 -5\nvalues set 37 -5\nvalues set 87 -5\nvalues set 62 -5\nbegin\n\
         carve 4294967295\ndist set 62 5\nopen\nopen\n",
    ),
    ("a voxel by itself", "values set 62 -5\nbegin\ndist set 62 5\nopen\nopen\n"),
    ("a voxel that passes", "values set 61 -5\nvalues set 62 -5\nbegin\ndist set 62 5\nopen\nopen\n"),
    (
        "equal distances, and a greater one that is not bare",
        "values set 31 -5\nvalues set 93 -5\nvalues set 62 -5\nbegin\nstatus set 62 1\ncarve 0\nstatus set 32 1\nstatus set 92 1\nstatus set 63 1\n\
         dist set 32 7\ndist set 92 7\ndist set 63 7\ncarve 4294967295\nopen\ncarve 1\nopen\n",
    ),
];

fn opening((what, lines): &(&str, &str)) -> String {
    format!("# open: {what}\nsides 5 5 5\nT 9\nvalues fill 5\n{lines}dump status\nfinish\n")
}

/// From what is cheap to the 64 voxels a side.
pub fn scripts() -> Vec<String> {
    let mut scripts: Vec<String> = SHAPES.iter().map(script).collect();
    scripts.extend(OPENINGS.iter().map(opening));
    scripts.extend([[64, 3, 5], [3, 64, 5], [5, 3, 64], [64, 33, 4], [4, 31, 64]].map(long));
    scripts.extend([greatest(), greatest_values(), greatest_gap(), most_gaps(), greatest_marked()]);
    scripts
}
