//! Values of 32 bits and layers of both widths (document 02, CR 5): every mixture of widths, values at the ends of each, records measured by their mark;
//! 28 with every fault that is looked for before it or after it, in read, the program, begin and the writer; which width the writer chooses; and such
//! grids carved to the end. Those from seeds mix widths by chance.

use super::patching::marked;
use super::refusals::{at, state, Subject};
use super::writing::{given as set, read_again, varied};
use super::Maker;
use crate::files::{file_of_both_widths, file_of_widths, hex, layer, patch};
use crate::grids::{stretched, Grid};
use crate::random::Random;
use crate::records::{parts, written_length, written_width, GREATEST, LEAST, MISSING, NARROW, NARROW_MISSING, OUT_OF_RANGE, WIDE};
use reference::file::program_line;
use reference::grid::Sides;

/// The values of a layer, 4 by 3.
const AREA: usize = 12;

/// One of each end of the range.
const UNDER: i32 = LEAST - 1;
const OVER: i32 = GREATEST + 1;

/// 4, 3, c with T = 258. No two layers are the same, and voxel (1, 1, 1), which is 17, is inside.
fn whole(c: usize) -> Grid {
    let values = (0..AREA * c).map(|i| if i == 17 { -6 } else { 6 + i as i32 % 50 }).collect();
    Grid { sides: [4, 3, c], allowed: 258, values }
}

/// That grid with some values changed.
fn with(c: usize, changes: &[(usize, i32)]) -> Grid {
    let mut g = whole(c);
    changes.iter().for_each(|&(i, value)| g.values[i] = value);
    g
}

/// The file of a grid with layers of these widths, in rising z.
pub(super) fn file(g: &Grid, widths: &[usize]) -> Vec<u8> {
    file_of_widths(g, widths.iter().copied().enumerate())
}

fn changed(mut file: Vec<u8>, changes: &[(usize, u8)]) -> Vec<u8> {
    changes.iter().for_each(|&(at, byte)| file[at] = byte);
    file
}

fn sides_of(file: &[u8]) -> Sides {
    let side = |i: usize| file.get(2 + i).map_or(3, |&s| u64::from(s));
    Sides { a: side(0), b: side(1), c: side(2) }
}

/// Where the records of a file begin, and where they end.
fn starts(file: &[u8]) -> Vec<usize> {
    let (records, _) = parts(file, &sides_of(file));
    let ends = records.last().map(|last| last.start + last.length);
    records.iter().map(|record| record.start).chain(ends).collect()
}

/// For every call that reads a file, with so many values lent; by the layer wherever a record begins.
fn given_lent(file: &[u8], lent: usize) -> String {
    let Sides { a, b, c } = sides_of(file);
    let layers: String = starts(file).iter().take(6).map(|start| format!("readlayer {start}\n")).collect();
    format!("file {}\nvalues len {lent}\nvalues fill 77\nread\nprogram\nrawsides {a} {b} {c}\n{layers}", hex(file))
}

pub(super) fn given(file: &[u8]) -> String {
    given_lent(file, sides_of(file).n())
}

/// Every mixture of widths of c layers.
pub(super) fn mixtures(c: usize) -> impl Iterator<Item = Vec<usize>> {
    (0..1usize << c).map(move |word| (0..c).map(|z| if word >> z & 1 == 1 { WIDE } else { NARROW }).collect())
}

// ---- widths and values

fn every_mixture() -> String {
    let mut text = "# every mixture of widths of three layers and of four\n".to_string();
    let values = [(0, -32_767), (1, MISSING), (14, 32_767), (23, MISSING), (24, -32_767), (35, MISSING)];
    for widths in mixtures(3) {
        text += &given(&file(&with(3, &values), &widths));
        text += "dump values\n";
        text += &given(&file(&with(3, &[(1, MISSING), (14, 32_767), (35, MISSING)]), &widths));
    }
    text + &mixtures(4).map(|widths| given(&file(&whole(4), &widths))).collect::<String>()
}

/// Values of four bytes at the ends of the range, of sixteen bits and of each byte, and the files' own marks.
const ENDS: [i32; 34] = [
    LEAST,
    LEAST + 1,
    GREATEST - 1,
    GREATEST,
    MISSING,
    -32_768,
    -32_769,
    -32_767,
    32_767,
    32_768,
    -65_536,
    -65_535,
    65_535,
    65_536,
    -8_388_608,
    -8_388_609,
    8_388_607,
    8_388_608,
    16_777_215,
    16_777_216,
    -16_777_216,
    -16_777_217,
    -1,
    0,
    1,
    -128,
    128,
    -256,
    255,
    256,
    0x0102_0304,
    -0x0102_0304,
    0x0057_5600,
    0x004C_5600,
];

/// Each in a layer that has nothing else of the kind, away from the border and on it; and all of them in one layer.
fn ends_of_values() -> String {
    let mut text = "# wide values at their ends\n".to_string();
    for value in ENDS {
        for widths in [[NARROW, WIDE, NARROW], [WIDE; 3]] {
            text += &given(&file(&with(3, &[(18, value)]), &widths));
        }
        text += &given(&file(&with(3, &[(12, value)]), &[WIDE, WIDE, NARROW]));
        text += "dump values\n";
    }
    let all = Grid { sides: [7, 5, 3], allowed: 1, values: ENDS.into_iter().chain([7]).cycle().take(105).collect() };
    text + &given(&file(&all, &[WIDE; 3])) + "dump values\nwrite 1000\nshowfile\n"
}

/// The old mark in each place: two bytes in a layer or a patch, and four in a layer, where it is measured.
fn old_mark() -> String {
    let mut text = "# -32768 of two bytes is missing, and of four is measured\n".to_string();
    for voxel in [0, 14, 17, 18, 35] {
        for (value, widths) in [(MISSING, [NARROW; 3]), (MISSING, [WIDE; 3]), (-32_768, [WIDE; 3]), (-32_767, [NARROW; 3])] {
            text += &given(&file(&with(3, &[(voxel, value)]), &widths));
            text += "dump values\nbegin\n";
        }
        for widths in [[NARROW; 3], [WIDE; 3], [WIDE, NARROW, WIDE]] {
            let layers = file(&whole(3), &widths);
            text += &given(&[&layers[..], &patch(voxel as u32, NARROW_MISSING)].concat());
            text += "dump values\nbegin\n";
        }
    }
    text
}

// ---- records are measured by their mark

const MARKS: [[u8; 2]; 8] =
    [[0x56, 0x57], [0x56, 0x4C], [0x57, 0x56], [0x57, 0x57], [0x56, 0x56], [0x56, 0x58], [0x56, 0x50], [0x00, 0x57]];

/// So many bytes of a record with each mark, as the first record, in between and as the last.
fn measured_by_the_mark() -> String {
    let (narrow, wide) = (3 + 2 * AREA, 3 + 4 * AREA);
    let mut text = "# records with each mark, cut off everywhere that matters\n".to_string();
    for (record, widths) in [(0, [WIDE; 3]), (1, [NARROW, WIDE, WIDE]), (2, [WIDE, NARROW, WIDE])] {
        let whole = file(&whole(3), &widths);
        let at = starts(&whole)[record];
        for mark in MARKS {
            let marked = changed(whole.clone(), &[(at, mark[0]), (at + 1, mark[1])]);
            for left in [0, 1, 2, 3, narrow - 1, narrow, narrow + 1, wide - 1, wide] {
                text += &given(&marked[..at + left]);
            }
        }
    }
    text
}

/// A wide mark on a record that is narrow: the next record is taken for its values.
fn marked_otherwise() -> String {
    let mut text = "# narrow records with the wide mark, and wide ones with the narrow mark\n".to_string();
    for widths in [[NARROW; 3], [NARROW, NARROW, WIDE], [WIDE; 3], [WIDE, NARROW, NARROW]] {
        let whole = file(&whole(3), &widths);
        for at in starts(&whole).into_iter().take(3) {
            for second in [0x57, 0x4C] {
                text += &given(&changed(whole.clone(), &[(at + 1, second)]));
                text += &given(&[&changed(whole.clone(), &[(at + 1, second)])[..], &[0; 24]].concat());
            }
        }
    }
    text
}

// ---- 28 in a file

/// A value in each place of each record.
fn each_place() -> String {
    let mut text = "# a value out of range in each place\n".to_string();
    for voxel in 0..36 {
        text += &given(&file(&with(3, &[(voxel, if voxel % 2 == 0 { OVER } else { UNDER })]), &[WIDE; 3]));
    }
    text
}

fn each_value() -> String {
    let mut text = "# each value out of range, in the first record, in between and in the last\n".to_string();
    for bad in OUT_OF_RANGE {
        for (voxel, widths) in [(0, [WIDE, NARROW, NARROW]), (18, [NARROW, WIDE, NARROW]), (35, [NARROW, WIDE, WIDE]), (11, [WIDE; 3])] {
            text += &given(&file(&with(3, &[(voxel, bad)]), &widths));
        }
    }
    text
}

/// What stands before a record is looked at first: the header's mark, its sides, how many values are lent.
fn after_the_header() -> String {
    let mut text = "# a fault of the header before 28\n".to_string();
    for (voxel, widths) in [(2, [WIDE; 3]), (18, [NARROW, WIDE, NARROW])] {
        let spoilt = file(&with(3, &[(voxel, OVER)]), &widths);
        for change in [(0, 0x57), (1, 0x57), (2, 2), (3, 65), (4, 2), (4, 65), (4, 25), (4, 64)] {
            text += &given(&changed(spoilt.clone(), &[change]));
        }
        text += &[0, 35, 37].map(|lent| given_lent(&spoilt, lent)).concat();
        text += &[6, 4, 1].map(|length| format!("file {}\nread\nprogram\n", hex(&spoilt[..length]))).concat();
    }
    text
}

/// Records that have 28 and are cut off, have a z beyond the grid, one that came before, or one that is not the next.
fn of_one_record() -> String {
    let mut text = "# other faults of a record before its 28\n".to_string();
    for (record, widths) in [(0, [WIDE; 3]), (1, [NARROW, WIDE, NARROW]), (2, [WIDE, NARROW, WIDE])] {
        for (place, bad) in [(0, OVER), (11, UNDER)] {
            let spoilt = file(&with(3, &[(AREA * record + place, bad)]), &widths);
            let at = starts(&spoilt)[record];
            text += &[7, 27, 28, 50].map(|left| given(&spoilt[..at + left])).concat();
            text += &[3, 4, 255, 0, 1, 2].map(|z| given(&changed(spoilt.clone(), &[(at + 2, z)]))).concat();
            text += &[(at, 0x46), (at + 1, 0x58)].map(|change| given(&changed(spoilt.clone(), &[change]))).concat();
        }
    }
    text
}

/// 28 of a record, and every fault of the next one; and the faults of a record before the one that has 28.
fn of_two_records() -> String {
    let mut text = "# 28 before the faults of the next record, and after those of the record before\n".to_string();
    for (record, widths) in
        [(0, [WIDE; 4]), (1, [NARROW, WIDE, WIDE, WIDE]), (1, [NARROW, WIDE, NARROW, WIDE]), (2, [WIDE, WIDE, WIDE, NARROW])]
    {
        let spoilt = file(&with(4, &[(AREA * record + 5, OVER)]), &widths);
        let next = starts(&spoilt)[record + 1];
        let length = starts(&spoilt)[record + 2] - next;
        text += &[0, 1, 2, 3, 26, 27, length - 1].map(|left| given(&spoilt[..next + left])).concat();
        text += &[
            (next, 0x57),
            (next + 1, 0x50),
            (next + 1, 0x57),
            (next + 1, 0x4C),
            (next + 2, 4),
            (next + 2, 255),
            (next + 2, 0),
            (next + 2, 3),
        ]
        .map(|change| given(&changed(spoilt.clone(), &[change])))
        .concat();
    }
    for (record, widths) in [(0, [NARROW, WIDE, WIDE, WIDE]), (1, [WIDE, WIDE, NARROW, WIDE]), (2, [WIDE; 4])] {
        let spoilt = file(&with(4, &[(47, UNDER), (AREA * (record + 1) + 3, OVER)]), &widths);
        let at = starts(&spoilt)[record];
        let faults = [(at, 0x57), (at + 1, 0x50), (at + 2, 4), (at + 2, 255), (at + 2, 3), (at + 2, 0)];
        text += &faults.map(|change| given(&changed(spoilt.clone(), &[change]))).concat();
    }
    text
}

/// What follows the layers mends nothing, and is not looked at.
fn before_patches() -> String {
    let mut text = "# 28 before all that follows the layers\n".to_string();
    for (voxel, widths) in [(2, [WIDE; 3]), (18, [NARROW, WIDE, NARROW]), (35, [NARROW, NARROW, WIDE])] {
        let spoilt = file(&with(3, &[(voxel, OVER)]), &widths);
        let mends = patch(voxel as u32, 6);
        let behind = [
            mends.clone(),
            [mends.clone(), patch(voxel as u32, NARROW_MISSING), patch(0, -1)].concat(),
            [patch(14, 9), mends.clone()].concat(),
            mends[..1].to_vec(),
            mends[..7].to_vec(),
            marked([0x57, 0x50]),
            marked([0x56, 0x57]),
            patch(36, 9),
            layer(0, &whole(3).values[..AREA], WIDE),
            vec![0; 3],
        ];
        text += &behind.iter().map(|rest| given(&[&spoilt[..], rest].concat())).collect::<String>();
    }
    text
}

/// Grids that begin refuses for their other values.
fn before_begin() -> String {
    let mut text = "# 28 before begin's faults\n".to_string();
    for bad in OUT_OF_RANGE {
        for changes in
            [&[(0, -1), (18, bad)][..], &[(35, LEAST), (18, bad)], &[(17, 6), (18, bad)], &[(17, MISSING), (0, bad)], &[(17, bad)]]
        {
            text += &given(&file(&with(3, changes), &[WIDE; 3]));
        }
    }
    text
}

// ---- widths and patches

/// Patches begin where the last layer ends, by its own width. Where that is taken for the other width, what stands there may look like a patch.
fn patches_behind() -> String {
    let mut text = "# patches behind layers of both widths\n".to_string();
    for widths in mixtures(3) {
        let layers = file(&with(3, &[(12, 70_000 * i32::from(widths[1] == WIDE) + 7)]), &widths);
        for rest in [patch(18, -9), [patch(18, 32_767), patch(12, NARROW_MISSING), patch(35, -32_767), patch(35, 0)].concat(), patch(36, 1)]
        {
            text += &given(&[&layers[..], &rest].concat());
        }
        for rest in [&patch(18, -9)[..7], &marked([0x56, 0x57]), &marked([0x56, 0x4C]), &[patch(0, 5), patch(1, 6), patch(2, 7)].concat()] {
            text += &given(&[&layers[..], rest].concat());
        }
        text += "dump values\n";
    }
    // the second half of the last layer is three patches; and three patches have the bytes of a wide layer's second half
    let as_values: Vec<u8> = (0..3).flat_map(|k| patch(k, 40 + k as i16)).collect();
    let words = as_values.chunks(4).map(|b| i32::from_le_bytes([b[0], b[1], b[2], b[3]]));
    let mut g = whole(3);
    words.enumerate().for_each(|(i, value)| g.values[30 + i] = value);
    text += &given(&file(&g, &[NARROW, NARROW, WIDE]));
    for second in [0x4C, 0x57] {
        let narrow = file(&whole(3), &[NARROW; 3]);
        let last = starts(&narrow)[2];
        text += &given(&[&changed(narrow, &[(last + 1, second)])[..], &as_values].concat());
        text += "dump values\n";
    }
    text
}

// ---- by the layer

/// A layer by itself is read whatever its values, with its width; and at any byte, also with other sides.
fn by_the_layer() -> String {
    let mut text = "# layers of both widths, read one by one\n".to_string();
    for widths in mixtures(3) {
        let whole = file(&with(3, &[(5, OVER), (18, UNDER), (30, MISSING)]), &widths);
        text += &format!("file {}\nsides 4 3 3\n", hex(&whole));
        let starts = starts(&whole);
        let asked = starts.iter().rev().chain(&starts).flat_map(|&start| [start, start + 1, start.saturating_sub(1)]);
        text += &asked.map(|start| format!("readlayer {start}\n")).collect::<String>();
        for sides in ["3 4 3", "4 4 3", "3 3 64", "6 4 3", "4 3 2", "64 64 64"] {
            text += &format!("rawsides {sides}\n{}", starts.iter().map(|start| format!("readlayer {start}\n")).collect::<String>());
        }
        text += "rawsides 4 3 3\nread\n";
    }
    let far = [1 << 32, 1 << 63, u64::MAX - 1, u64::MAX, u64::MAX - 50, u64::MAX - 51].map(|start| format!("readlayer {start}\n"));
    text + &far.concat()
}

/// A file that comes byte by byte where a wide mark begins.
fn as_it_comes() -> String {
    let mut text = "# files that come a few bytes at a time\n".to_string();
    for widths in [[WIDE, NARROW, WIDE], [NARROW, WIDE, WIDE]] {
        let whole = file(&with(3, &[(18, 70_000 - 69_900 * i32::from(widths[1] == NARROW)), (30, GREATEST)]), &widths);
        let starts = starts(&whole);
        text += &format!("sides 4 3 3\nvalues fill 77\nfile {}\nread\n", hex(&whole[..7]));
        for record in 0..3 {
            let bytes = &whole[starts[record]..starts[record + 1]];
            let cuts = [0, 1, 2, 3, 27.min(bytes.len() - 1), bytes.len() - 1, bytes.len()];
            for pair in cuts.windows(2) {
                let part = hex(&bytes[pair[0]..pair[1]]);
                text += &format!("append {part}\nread\nprogram\nreadlayer {}\n", starts[record]);
            }
        }
        text += "dump values\n";
    }
    text
}

/// What follows read: begin takes the values; after 28 sides, T and values are as before.
fn read_then_begin() -> String {
    let go_on = "dist len 36\nstatus len 36\nmarks len 36\nbegin\ncarve 4294967295\nfinish\ncrossing 17 0\npoints 0 60\n";
    let good = hex(&file(&with(3, &[(18, 70_000), (16, -80_000)]), &[NARROW, WIDE, NARROW]));
    let bad = [(18, OVER), (0, UNDER), (35, i32::MAX)].map(|change| {
        let spoilt = hex(&file(&with(3, &[change]), &[WIDE; 3]));
        format!("file {spoilt}\nT 9\nread\nprogram\n{go_on}values set 18 -3\nread\n{go_on}")
    });
    format!("# read, then begin\nsides 3 3 3\nT 7\nfile {good}\nvalues len 36\nread\n{go_on}{}file {good}\nread\n{go_on}", bad.concat())
}

// ---- begin

/// Case C's ring with values of 32 bits. 31 is inside, 37 is the ring's middle; each fault alone and every two of them.
fn begin() -> Subject<'static> {
    let faults = [
        state("1", "rawsides 5 5 2\n"),
        state("2", "values len 74\n"),
        state("2", "status len 76\n"),
        state("28", "values set 37 1000000001\n"),
        state("28", "values set 37 -1000000001\n"),
        state("28", "values set 37 -2147483647\n"),
        state("28", "values set 37 2147483647\n"),
        state("28", "values set 0 -1500000000\n"),
        state("28", "values set 74 1500000000\n"),
        state("28", "values set 0 1000000001\n"),
        state("28", "values set 74 -1000000001\n"),
        state("28", "values set 12 1000000001\nvalues set 62 -1000000001\n"),
        state("28", "values set 31 -1000000001\n"),
        state("3", "values set 62 -32768\n"),
        state("3", "values set 0 -1000000000\n"),
        state("4", "values fill 70000\n"),
        state("4", "values fill -2147483648\n"),
        state("4", "values fill 1000000000\n"),
    ];
    let ring: String = [31, 32, 33, 36, 38, 41, 42, 43].map(|i| format!("values set {i} -40000\n")).concat();
    let state = format!("sides 5 5 3\nT 1\nvalues fill 40000\n{ring}");
    Subject { call: "begin", index: "", axis: "", state, faults: faults.to_vec() }
}

/// 28 and 4 together, and with nothing else wrong but a value in a buffer that is too long or too short.
const NO_NEGATIVE: &str = "# begin: 28 before 4, and 2 before 28\nsides 3 3 3\nvalues fill 5\nvalues set 26 1000000001\nbegin\nvalues fill -2147483648\n\
     values set 0 -2147483647\nbegin\nvalues set 0 -1000000001\nbegin\nvalues set 0 -1000000000\nbegin\nvalues fill 5\nvalues set 13 -1000000001\nbegin\n\
     values set 13 -1000000000\nbegin\nvalues len 28\nvalues set 27 2147483647\nbegin\nvalues len 26\nbegin\nvalues set 0 2147483647\nbegin\n\
     values len 27\nbegin\n";

/// Each value out of range, first, within, last and twice, lent to begin and to the writer, between calls that are done.
fn lent() -> String {
    let mut text = "# values out of range, lent to begin and to write\nsides 3 3 3\nvalues fill 6\nvalues set 13 -6\n".to_string();
    for bad in OUT_OF_RANGE {
        for voxels in [&[0][..], &[13], &[26], &[0, 26], &[12, 13, 14]] {
            text += &voxels.iter().map(|voxel| format!("values set {voxel} {bad}\n")).collect::<String>();
            text += "begin\nwrite 124\nwrite 69\nvalues fill 6\nvalues set 13 -6\n";
        }
        text += "begin\nwrite 124\n";
    }
    text
}

/// Distances beyond 16 bits through every call: one examination at a time, openings, and the points at the end.
const CALLS: &str =
    "begin\ndump dist\ndump status\ncarve 0\ncarve 1\ncarve 1\ncarve 2\ncarve 4294967295\nopen\ncarve 1\ncarve 4294967295\nopen\n\
                     carve 4294967295\nopen\ncarve 4294967295\nfinish\ndump dist\npoints 0 1200\n";

/// What a grid is for, its sides, the value everywhere, and the voxels that differ.
type Shape = (&'static str, [usize; 3], i32, &'static [(usize, i32)]);

const SHAPES: &[Shape] = &[
    ("M is the greatest value, and worked distances go beyond it", [6, 5, 4], GREATEST, &[(37, LEAST), (38, -1), (82, -1)]),
    ("M is the greatest value in a layer of its own", [3, 3, 5], 9, &[(13, LEAST), (22, GREATEST), (31, LEAST)]),
    ("both ends of the range, and the old mark", [5, 4, 6], GREATEST, &[(26, LEAST), (27, -1), (52, -32_768), (0, MISSING), (68, 0)]),
    ("M in its upper bytes alone", [5, 5, 5], 65_536, &[(62, -65_536), (61, 131_072), (63, 65_535), (0, 1)]),
    ("M is not a missing point's", [5, 5, 5], MISSING, &[(62, -70_000), (61, 70_001), (63, 0)]),
    ("-32768 is inside", [5, 5, 5], 40_000, &[(62, -32_768), (63, -32_768), (61, MISSING), (31, MISSING)]),
    ("the largest group is of -32768", [7, 5, 4], 9, &[(43, -32_768), (44, -32_768), (46, -1)]),
    ("two groups, told apart in 32 bits", [9, 5, 4], 100_000, &[(55, -65_536), (56, -65_536), (61, -1), (60, -1)]),
    (
        "distances that are equal in 16 bits",
        [7, 6, 5],
        65_537,
        &[(50, -1), (58, -1), (100, -65_537), (109, 131_073), (92, 1), (93, 196_609)],
    ),
    (
        "a hollow of missing points",
        [5, 5, 5],
        50_000,
        &[
            (31, -9),
            (32, -9),
            (33, -9),
            (36, -9),
            (37, -9),
            (38, -9),
            (41, -9),
            (42, -9),
            (43, -9),
            (56, -9),
            (57, -9),
            (58, -9),
            (61, -9),
            (62, MISSING),
            (63, -9),
            (66, -9),
            (67, MISSING),
            (68, -9),
            (81, -9),
            (82, -9),
            (83, -9),
            (86, -9),
            (88, -9),
            (91, -9),
            (92, -9),
            (93, -9),
        ],
    ),
];

fn shape(&(what, [a, b, c], fill, voxels): &Shape) -> String {
    let mut values = vec![fill; a * b * c];
    voxels.iter().for_each(|&(i, value)| values[i] = value);
    format!("# {what}\n{}{CALLS}{}", set([a, b, c], 65_535, &values), written_and_read([a, b, c], &values))
}

// ---- the writer

fn length([a, b, c]: [usize; 3], width: usize) -> usize {
    written_length(&Sides { a: a as u64, b: b as u64, c: c as u64 }, width) as usize
}

/// The grid written at its length and a byte less, shown, and read again.
fn written_and_read(sides: [usize; 3], values: &[i32]) -> String {
    let length = length(sides, written_width(values));
    format!("write {}\nwrite {length}\nshowfile\n{}dump values\n", length - 1, read_again(sides))
}

/// 5, 4, 3 with T = 258 and one value of 40000: 60 voxels, 256 bytes.
fn writer() -> Subject<'static> {
    let faults = [
        state("1", "rawsides 10 2 3\n"),
        at("1", "rawsides 65 3 3\nvalues len 585\n", "2374"),
        state("2", "values len 59\n"),
        state("2", "values len 61\n"),
        state("28", "values set 0 1000000001\n"),
        state("28", "values set 59 -1000000001\n"),
        state("28", "values set 30 -2147483647\n"),
        state("28", "values set 30 2147483647\n"),
        state("28", "values set 30 -1500000000\n"),
        state("28", "values set 30 1500000000\n"),
        state("28", "values set 0 -1000000001\nvalues set 59 1000000001\n"),
        at("26", "", "255"),
        at("26", "", "136"),
        at("26", "", "0"),
        at("26", "values fill 3\n", "135"),
    ];
    let state = format!("{}values set 7 40000\n", set([5, 4, 3], 258, &varied(60)));
    Subject { call: "write", index: "256", axis: "", state, faults: faults.to_vec() }
}

/// One value at the edge of two bytes, in the first voxel, within and in the last, among others that two bytes hold.
fn at_the_edge() -> String {
    let mut text = "# the width turns at -32768 and at 32768\n".to_string();
    for value in [-32_767, -32_768, -32_769, 32_767, 32_768, -65_536, 65_536, LEAST, GREATEST, MISSING, 0] {
        for voxel in [0, 13, 26] {
            for fill in [0, MISSING, -32_767] {
                let mut values = vec![fill; 27];
                values[voxel] = value;
                values[5] = if fill == 0 { 32_767 } else { fill };
                let length = length([3, 3, 3], written_width(&values));
                text += &format!("{}write {}\nwrite {length}\nshowfile\n{}", set([3, 3, 3], 1, &values), length - 1, read_again([3, 3, 3]));
            }
        }
    }
    text
}

/// A layer that needs four bytes, first, in between and last: all are written wide.
fn one_wide_layer() -> String {
    let mut text = "# one layer that needs four bytes\n".to_string();
    for wide in 0..4 {
        let values: Vec<i32> = (0..48).map(|i| if i / 12 == wide { 1_000_003 * (i - 20) } else { 7 - i }).collect();
        text += &set([4, 3, 4], 770, &values);
        text += &[length([4, 3, 4], NARROW), 4096].map(|lent| format!("write {lent}\n")).concat();
        text += &written_and_read([4, 3, 4], &values);
        text += "program\n";
    }
    text
}

/// Missing points alone are narrow, whatever they were read from; and buffers of every length.
fn missing_alone() -> String {
    let values = [MISSING; 27];
    let wide = file(&Grid { sides: [3, 3, 3], allowed: 5, values: values.to_vec() }, &[WIDE; 3]);
    let lent = [0, 69, 70, 71, 123, 124, 125, 1000].map(|lent| format!("write {lent}\n")).concat();
    format!(
        "# missing points alone\n{}{lent}showfile\nfile {}\nread\n{lent}showfile\nvalues set 26 32768\n{lent}showfile\nread\nvalues set 26 32767\n{lent}read\n",
        set([3, 3, 3], 5, &values),
        hex(&wide)
    )
}

/// Read with one mixture of widths, written with one width, and read again; with and without patches that change which it is.
fn rewritten() -> String {
    let mut text = "# files of both widths, written again\n".to_string();
    let patches = [vec![], patch(18, 5), patch(30, NARROW_MISSING), [patch(18, 5), patch(30, 9)].concat()];
    for widths in mixtures(3) {
        let big = |layer: usize, value: i32| if widths[layer] == WIDE { value } else { 5 };
        let layers = file(&with(3, &[(2, MISSING), (18, big(1, 70_000)), (30, big(2, -32_768))]), &widths);
        for rest in &patches {
            text += &format!("sides 4 3 3\nfile {}\nread\n", hex(&[&layers[..], rest].concat()));
            text += &[length([4, 3, 3], NARROW), length([4, 3, 3], WIDE)].map(|lent| format!("write {lent}\n")).concat();
            text += &format!("showfile\n{}write 200\nshowfile\nprogram\n", read_again([4, 3, 3]));
        }
    }
    text
}

// ---- the program

/// Bodies in 32 bits: case C's ring with T, and case D, in every width that holds them.
fn bodies() -> String {
    let ring = [31, 32, 33, 36, 38, 41, 42, 43];
    let mut text = "# cases C and D with values of 32 bits\n".to_string();
    for size in [4, 32_767, 32_768, 40_000, GREATEST] {
        let width = if size > 32_767 { WIDE } else { NARROW };
        for allowed in [0, 1, 256] {
            let values = (0..75).map(|i| if ring.contains(&i) { -size } else { size }).collect();
            let g = Grid { sides: [5, 5, 3], allowed, values };
            text += &[[WIDE; 3], [width, WIDE, width]].map(|widths| given(&file(&g, &widths))).concat();
        }
        let values = (0..48).map(|i| if i == 21 || i == 26 { -size } else { size }).collect();
        text += &given(&file(&Grid { sides: [4, 4, 3], allowed: 0, values }, &[width, WIDE, width]));
    }
    text
}

/// The first seeds whose grid gives the program another line where its values are clipped to what two bytes hold: carving goes by how far beyond they
/// are.
fn beyond_16_bits() -> String {
    let line = |g: &Grid| program_line(&file(g, &vec![WIDE; g.sides[2]]));
    let clipped = |g: &Grid| {
        let clip = |&value: &i32| if value == MISSING { value } else { value.clamp(-32_767, 32_767) };
        Grid { sides: g.sides, allowed: g.allowed, values: g.values.iter().map(clip).collect() }
    };
    let told_apart = |g: &Grid| line(g).starts_with("kept") && line(g) != line(&clipped(g));
    let grids = (1..).map(|seed| stretched(&mut Random::new(seed), 7)).filter(told_apart).take(4);
    let each = grids.map(|g| given(&file(&g, &vec![WIDE; g.sides[2]])) + &given(&file(&clipped(&g), &vec![NARROW; g.sides[2]])));
    format!("# grids whose line is another one where values are clipped\n{}", each.collect::<String>())
}

/// Sides at the ends, with wide layers: read takes 64 and the program 24.
fn ends_of_sides() -> String {
    let mut text = "# sides at their ends, with wide layers\n".to_string();
    for sides in
        [[24, 3, 3], [3, 24, 3], [3, 3, 24], [25, 3, 3], [3, 25, 3], [3, 3, 25], [64, 3, 3], [3, 64, 3], [3, 3, 64], [65, 3, 3], [3, 3, 65]]
    {
        let n: usize = sides.iter().product();
        let middle = 1 + sides[0] * (1 + sides[1]);
        let values = (0..n).map(|i| if i == middle { -70_000 } else { 70_000 + i as i32 }).collect();
        let widths: Vec<usize> = (0..sides[2]).map(|z| if z == 2 && sides[2] == 3 { NARROW } else { WIDE }).collect();
        let mut g = Grid { sides, allowed: 1, values };
        if sides[2] == 3 {
            g.values[2 * sides[0] * sides[1]..].fill(300);
        }
        text += &given(&file(&g, &widths));
    }
    text
}

pub fn scripts() -> Vec<String> {
    let mut scripts = vec![every_mixture(), ends_of_values(), old_mark(), measured_by_the_mark(), marked_otherwise()];
    scripts.extend([each_place(), each_value(), after_the_header(), of_one_record(), of_two_records(), before_patches(), before_begin()]);
    scripts.extend([patches_behind(), by_the_layer(), as_it_comes(), read_then_begin()]);
    scripts.extend(begin().scripts());
    scripts.extend([NO_NEGATIVE.to_string(), lent()]);
    scripts.extend(SHAPES.iter().map(shape));
    scripts.extend(writer().scripts());
    scripts.extend([at_the_edge(), one_wide_layer(), missing_alone(), rewritten(), bodies(), beyond_16_bits(), ends_of_sides()]);
    scripts
}

impl Maker {
    /// A file of both widths for all that reads one; then a grid of 32 bits with calls on it, and written between them.
    pub(super) fn widths(&mut self, greatest: i64) {
        let bytes = file_of_both_widths(&mut self.r, greatest);
        let ([a, b, c], n) = self.reads(&bytes);
        for start in starts(&bytes).into_iter().take(5) {
            self.say(format!("readlayer {start}"));
        }
        let room = written_length(&Sides { a, b, c }, WIDE).min(1 << 21);
        self.say(format!("values len {n}\nread\nwrite {room}\nread"));

        let g = stretched(&mut self.r, greatest);
        let [a, b, c] = g.sides.map(|side| side as u64);
        let (sides, t) = (Sides { a, b, c }, self.r.pick(&[g.allowed, 1, 65_535]));
        self.set(sides, t);
        self.list_of("values", &g.values);
        self.write(&sides, written_width(&g.values));
        self.say("begin");
        match reference::grid::begin(sides, t, &g.values, &self.marks, &mut self.dist, &mut self.status) {
            Ok(record) => self.record = record,
            Err(_) => return self.say("carve 1\nhash"),
        }
        let count = self.r.between(3, 15);
        self.calls(count, [45, 25, 29, 0]);
        self.and_finish();
        let (place, bad) = (self.r.below(a * b * c), self.r.pick(&OUT_OF_RANGE));
        self.say(format!("values set {place} {bad}\nwrite {}\nbegin", written_length(&sides, WIDE)));
    }
}
