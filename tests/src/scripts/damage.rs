//! Grid files with each fault of header and layers alone, by every clause, and with every two of them; and whole files at the ends of the sides.
//! Each file goes through read, the program and, record by record, readlayer. What follows the layers has its own scripts (patching.rs).

use crate::files::{file_of, hex};
use crate::grids::Grid;
use crate::records::MISSING;

#[derive(Clone, Copy)]
pub(super) enum Damage {
    /// The file ends after so many bytes of its header.
    HeaderCut(usize),
    HeaderMark(usize),
    /// A side byte: which, and what it is instead.
    Side(usize, u8),
    /// So many values more are lent than the file has.
    Lent(i64),
    /// The file ends after so many bytes of a record.
    Cut(usize, usize),
    Mark(usize, usize),
    Z(usize, u8),
    /// The record's z is 0, that of the first record.
    Again(usize),
    /// So many bytes of 0 after the layers: a patch that is cut off, or that has a wrong mark.
    Extra(usize),
    BorderNegative(usize),
    NoneNegative,
    OnlyMissing,
}

use Damage::*;

const SIDES: [usize; 3] = [4, 3, 3];
pub(super) const VOXELS: usize = 36;
const RECORD: usize = 3 + 2 * 12;
const LAYERS: [usize; 3] = [0, 1, 2];

fn start(record: usize) -> usize {
    7 + RECORD * record
}

/// 4, 3, 3, all 6, voxel (1, 1, 1) -6; T = 258.
fn whole() -> Grid {
    let mut values = vec![6; VOXELS];
    values[17] = -6;
    Grid { sides: SIDES, allowed: 258, values }
}

/// The damaged file, and how many values are lent for it.
pub(super) fn damaged(damages: &[Damage]) -> (Vec<u8>, i64) {
    let mut grid = whole();
    for damage in damages {
        match *damage {
            BorderNegative(voxel) => grid.values[voxel] = -1,
            NoneNegative => grid.values[17] = 6,
            OnlyMissing => grid.values.fill(MISSING),
            _ => {}
        }
    }
    let mut file = file_of(&grid, &LAYERS);
    let (mut end, mut more) = (file.len(), 0);
    for damage in damages {
        match *damage {
            HeaderCut(length) => end = length,
            HeaderMark(byte) => file[byte] ^= 1,
            Side(which, side) => file[2 + which] = side,
            Lent(values) => more = values,
            Cut(record, bytes) => end = start(record) + bytes,
            Mark(record, byte) => file[start(record) + byte] ^= 0x10,
            Z(record, z) => file[start(record) + 2] = z,
            Again(record) => file[start(record) + 2] = 0,
            Extra(bytes) => file.extend(vec![0; bytes]),
            BorderNegative(_) | NoneNegative | OnlyMissing => continue,
        }
        end = if matches!(damage, Extra(_)) { file.len() } else { end };
    }
    file.truncate(end);
    let lent = file.get(2..5).map_or(VOXELS as i64, |s| s.iter().map(|&side| i64::from(side)).product::<i64>());
    (file, (if lent > 1 << 20 { VOXELS as i64 } else { lent }) + more)
}

/// Lines that give a file to every call that reads one.
pub(super) fn calls(file: &[u8], lent: i64) -> String {
    let mut text = format!("file {}\nvalues len {lent}\nvalues fill 77\nread\nprogram\n", hex(file));
    let side = |i: usize| file.get(2 + i).map_or(3, |&s| usize::from(s));
    let record = 3 + 2 * side(0) * side(1);
    text += &format!("rawsides {} {} {}\n", side(0), side(1), side(2));
    for i in 0..side(2).min(4) {
        text += &format!("readlayer {}\n", 7 + i * record);
    }
    text
}

fn script(what: &str, files: &[&[Damage]]) -> String {
    let calls = files.iter().map(|damages| {
        let (file, lent) = damaged(damages);
        calls(&file, lent)
    });
    format!("# {what}\n{}", calls.collect::<String>())
}

/// Each fault by itself, by each of its clauses.
const ALONE: &[(&str, &[Damage])] = &[
    ("header 21", &[HeaderCut(6), HeaderCut(5), HeaderCut(4), HeaderCut(3), HeaderCut(2), HeaderCut(1), HeaderCut(0)]),
    ("header 22", &[HeaderMark(0), HeaderMark(1)]),
    ("1: a", &[Side(0, 2), Side(0, 65), Side(0, 0), Side(0, 255), Side(0, 25), Side(0, 64)]),
    ("1: b", &[Side(1, 2), Side(1, 65), Side(1, 0), Side(1, 255), Side(1, 25), Side(1, 64)]),
    ("1: c", &[Side(2, 2), Side(2, 65), Side(2, 0), Side(2, 255), Side(2, 25), Side(2, 64)]),
    ("2", &[Lent(-1), Lent(1), Lent(-(VOXELS as i64))]),
    ("21: a record cut off", &[Cut(0, 0), Cut(0, 1), Cut(0, 2), Cut(0, 3), Cut(1, 0), Cut(1, 20), Cut(2, 0), Cut(2, 26)]),
    ("22: a record's mark", &[Mark(0, 0), Mark(0, 1), Mark(1, 0), Mark(1, 1), Mark(2, 0), Mark(2, 1)]),
    ("23", &[Z(0, 3), Z(0, 255), Z(1, 3), Z(2, 3), Z(2, 255)]),
    ("24", &[Again(1), Again(2), Z(2, 1)]),
    ("bytes of 0 after the layers", &[Extra(1), Extra(2), Extra(RECORD)]),
    ("3", &[BorderNegative(16), BorderNegative(19), BorderNegative(13), BorderNegative(21), BorderNegative(5), BorderNegative(29)]),
    ("4", &[NoneNegative, OnlyMissing]),
];

/// Two faults at once. Where a record is too short the rest of the file is gone, so that fault stands in the last record that a pair has.
const PAIRS: &[(&str, &[[Damage; 2]])] = &[
    (
        "header 21 before the header's other faults",
        &[
            [HeaderCut(6), HeaderMark(0)],
            [HeaderCut(2), HeaderMark(1)],
            [HeaderCut(6), Side(0, 2)],
            [HeaderCut(5), Side(2, 65)],
            [HeaderCut(6), Side(1, 25)],
            [HeaderCut(6), Lent(1)],
            [HeaderCut(5), Lent(-1)],
        ],
    ),
    (
        "header 22 before all that follows",
        &[
            [HeaderMark(0), Side(0, 2)],
            [HeaderMark(1), Side(1, 65)],
            [HeaderMark(1), Side(2, 25)],
            [HeaderMark(0), Lent(1)],
            [HeaderMark(1), Lent(-1)],
            [HeaderMark(0), Cut(1, 5)],
            [HeaderMark(1), Cut(2, 0)],
            [HeaderMark(0), Mark(1, 0)],
            [HeaderMark(1), Mark(0, 1)],
            [HeaderMark(0), Z(0, 3)],
            [HeaderMark(1), Z(1, 255)],
            [HeaderMark(0), Again(1)],
            [HeaderMark(1), Again(2)],
            [HeaderMark(0), Extra(1)],
            [HeaderMark(1), Extra(9)],
            [HeaderMark(0), BorderNegative(0)],
            [HeaderMark(1), BorderNegative(5)],
            [HeaderMark(0), NoneNegative],
            [HeaderMark(1), NoneNegative],
        ],
    ),
    (
        "1 before all that follows: with c = 2 the first two records stay where they are",
        &[
            [Side(2, 2), Lent(1)],
            [Side(2, 65), Lent(-1)],
            [Side(2, 2), Cut(1, 5)],
            [Side(2, 2), Mark(1, 0)],
            [Side(2, 2), Mark(0, 1)],
            [Side(2, 2), Z(1, 2)],
            [Side(2, 2), Z(1, 255)],
            [Side(2, 2), Again(1)],
            [Side(2, 65), Again(1)],
            [Side(2, 65), Z(1, 65)],
            [Side(2, 65), Mark(1, 0)],
            [Side(2, 25), Again(1)],
            [Side(2, 25), Z(1, 25)],
            [Side(2, 25), Mark(1, 0)],
            [Side(2, 2), Extra(1)],
            [Side(2, 2), BorderNegative(0)],
            [Side(2, 25), BorderNegative(0)],
            [Side(2, 2), NoneNegative],
            [Side(2, 25), NoneNegative],
        ],
    ),
    (
        "2 before what the records have",
        &[
            [Lent(1), Cut(1, 5)],
            [Lent(-1), Cut(2, 0)],
            [Lent(1), Mark(1, 0)],
            [Lent(-1), Mark(2, 1)],
            [Lent(1), Z(1, 3)],
            [Lent(-1), Z(2, 255)],
            [Lent(1), Again(1)],
            [Lent(-1), Again(2)],
            [Lent(1), Extra(1)],
            [Lent(-1), Extra(9)],
        ],
    ),
    (
        "two faults of one record",
        &[
            [Cut(1, 20), Mark(1, 0)],
            [Cut(2, 26), Mark(2, 1)],
            [Cut(1, 20), Z(1, 3)],
            [Cut(2, 26), Z(2, 255)],
            [Cut(1, 20), Again(1)],
            [Cut(2, 26), Again(2)],
            [Mark(1, 0), Z(1, 3)],
            [Mark(2, 1), Z(2, 255)],
            [Mark(1, 1), Again(1)],
            [Mark(2, 0), Again(2)],
        ],
    ),
    (
        "a fault of a record before another of a later record",
        &[
            [Mark(0, 0), Cut(1, 5)],
            [Mark(1, 0), Cut(2, 26)],
            [Mark(0, 1), Mark(1, 1)],
            [Mark(1, 0), Mark(2, 0)],
            [Mark(0, 1), Z(1, 3)],
            [Mark(1, 0), Z(2, 3)],
            [Mark(0, 0), Again(1)],
            [Mark(1, 0), Again(2)],
            [Z(0, 3), Cut(1, 5)],
            [Z(1, 3), Cut(2, 26)],
            [Z(0, 3), Mark(1, 0)],
            [Z(1, 3), Mark(2, 1)],
            [Z(0, 255), Z(1, 3)],
            [Z(1, 3), Z(2, 255)],
            [Z(1, 3), Again(2)],
            [Again(1), Cut(2, 26)],
            [Again(1), Cut(2, 0)],
            [Again(1), Mark(2, 0)],
            [Again(1), Z(2, 3)],
            [Again(1), Again(2)],
        ],
    ),
    (
        "a record's fault before those of bytes after the layers, and before begin's",
        &[
            [Mark(0, 0), Extra(1)],
            [Mark(2, 1), Extra(9)],
            [Z(0, 3), Extra(1)],
            [Z(2, 3), Extra(9)],
            [Again(1), Extra(1)],
            [Again(2), Extra(9)],
            [Cut(2, 26), BorderNegative(0)],
            [Cut(2, 0), BorderNegative(5)],
            [Cut(2, 26), NoneNegative],
            [Cut(2, 0), NoneNegative],
            [Mark(2, 0), BorderNegative(0)],
            [Mark(1, 1), BorderNegative(5)],
            [Mark(2, 0), NoneNegative],
            [Mark(1, 1), NoneNegative],
            [Z(2, 3), BorderNegative(0)],
            [Z(2, 255), BorderNegative(5)],
            [Z(2, 3), NoneNegative],
            [Z(1, 3), NoneNegative],
            [Again(2), BorderNegative(0)],
            [Again(2), BorderNegative(5)],
            [Again(2), NoneNegative],
            [Z(2, 1), NoneNegative],
        ],
    ),
    (
        "bytes of 0 after the layers before begin's faults",
        &[[Extra(1), BorderNegative(0)], [Extra(9), BorderNegative(35)], [Extra(1), NoneNegative], [Extra(9), OnlyMissing]],
    ),
];

/// A body of two voxels that touch at an edge, with a voxel of 0 between, in a grid of these sides.
fn ends(sides: [usize; 3]) -> Vec<u8> {
    let [a, b, c] = sides;
    let mut values: Vec<i32> = (0..a * b * c).map(|i| 3 + (i % 7) as i32).collect();
    let at = |x: usize, y: usize, z: usize| x + a * (y + b * z);
    for k in 0..a.max(b).max(c) - 2 {
        let voxel = at(1 + k.min(a - 3), 1 + k.min(b - 3), 1 + k.min(c - 3));
        values[voxel] = if k % 4 == 2 { 0 } else { -2 - (k % 3) as i32 };
    }
    file_of(&Grid { sides, allowed: 65535, values }, &(0..c).collect::<Vec<_>>())
}

/// A file of 24 voxels a side with a ring in it, which the program opens.
fn largest() -> Vec<u8> {
    let side = 24;
    let value = |i: usize| {
        let v = [i % side, i / side % side, i / (side * side)].map(|v| v as f64 - 11.5);
        let ring = (v[0].hypot(v[1]) - 7.0).hypot(v[2]) - 3.0;
        (20.0 * ring).round() as i32
    };
    let values = (0..side * side * side).map(value).collect();
    file_of(&Grid { sides: [side; 3], allowed: 1, values }, &(0..side).collect::<Vec<_>>())
}

/// Whole files with a side at 24, 25, 64 or 65 and the others at 3, or all different.
fn at_the_ends() -> String {
    let mut text = "# sides at the ends: read takes 64, the program 24\n".to_string();
    for side in [24, 25, 64, 65] {
        for sides in [[side, 3, 3], [3, side, 3], [3, 3, side]] {
            text += &calls(&ends(sides), sides.iter().product::<usize>() as i64);
        }
    }
    text + &calls(&ends([5, 7, 6]), 210) + &calls(&ends([24, 23, 3]), 24 * 23 * 3) + &calls(&ends([3, 4, 24]), 288)
}

/// Case C as a file: with T = 1 the program opens it. And a frame with a bar across, which it opens twice.
fn rings() -> String {
    let ring = [31, 32, 33, 36, 38, 41, 42, 43];
    let frame = [49, 50, 51, 52, 53, 54, 57, 60, 62, 65, 66, 67, 68, 69, 70];
    let file = |sides: [usize; 3], body: &[usize], allowed: u16| {
        let values = (0..sides.iter().product()).map(|i| if body.contains(&i) { -4 } else { 4 }).collect();
        file_of(&Grid { sides, allowed, values }, &LAYERS)
    };
    let rings: String = [0, 1, 256].map(|t| calls(&file([5, 5, 3], &ring, t), 75)).concat();
    let frames: String = [1, 2, 65535].map(|t| calls(&file([8, 5, 3], &frame, t), 120)).concat();
    format!("# case C as a file, then a frame with a bar\n{rings}{frames}")
}

fn large_file() -> String {
    let file = largest();
    let (header, layers) = file.split_at(7);
    let lines: String = layers.chunks(3 + 2 * 24 * 24).map(|layer| format!("append {}\n", hex(layer))).collect();
    format!("# 24 voxels a side\nfile {}\n{lines}program\nvalues len 13824\nread\n", hex(header))
}

/// Where a record may be asked for: at the end of the file, past it, and so far that a sum would overflow; and with sides that are not fit.
fn starts() -> String {
    let (file, _) = damaged(&[]);
    let len = file.len() as u64;
    let starts = [
        0,
        1,
        6,
        7,
        8,
        len - 1,
        len,
        len + 1,
        len - RECORD as u64,
        len - RECORD as u64 + 1,
        u64::MAX,
        u64::MAX - 26,
        u64::MAX - 27,
        1 << 63,
        1 << 32,
    ];
    let asked: String = starts.iter().map(|start| format!("readlayer {start}\n")).collect();
    let sides = [
        "4 3 3",
        "4 3 2",
        "4 3 1",
        "4 2 3",
        "2 3 3",
        "65 3 3",
        "4 65 3",
        "4 3 65",
        "64 64 64",
        "18446744073709551615 18446744073709551615 3",
    ];
    let unfit: String = sides.iter().map(|sides| format!("rawsides {sides}\nreadlayer 7\nreadlayer 34\nreadlayer {len}\n")).collect();
    let (marked, _) = damaged(&[Mark(0, 0), Z(1, 9)]);
    format!("# readlayer's start and sides\nfile {}\nrawsides 4 3 3\n{asked}{unfit}file {}\n{unfit}", hex(&file), hex(&marked))
}

/// What follows read: begin takes the values, the sides and T that it set; after a refusal all three are as before.
fn read_then_begin() -> String {
    let (good, _) = damaged(&[]);
    let (bad, _) = damaged(&[Again(2)]);
    let go_on = format!("dist len {VOXELS}\nstatus len {VOXELS}\nmarks len {VOXELS}\nbegin\ncarve 4294967295\nfinish\ncrossing 17 0\n");
    format!(
        "# read, then begin\nsides 3 3 3\nT 7\nfile {}\nvalues len {VOXELS}\nread\n{go_on}file {}\nT 9\nread\n{go_on}",
        hex(&good),
        hex(&bad)
    )
}

pub fn scripts() -> Vec<String> {
    let mut scripts: Vec<String> = Vec::new();
    for (what, damages) in ALONE {
        let each: Vec<&[Damage]> = damages.iter().map(std::slice::from_ref).collect();
        scripts.push(script(what, &each));
    }
    for (what, pairs) in PAIRS {
        let both: Vec<&[Damage]> = pairs.iter().map(|pair| &pair[..]).collect();
        scripts.push(script(what, &both));
    }
    scripts.extend([script("whole", &[&[]]), at_the_ends(), starts(), read_then_begin(), rings(), large_file()]);
    scripts
}
