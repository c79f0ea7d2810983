//! Coarse starts (document 02, CR 10): bodies of few voxels, whose box has many blocks that go; which of its eight voxels gives a block its distance or
//! its pin; hurries, which wait; number 31 by each clause, and 2 by each length; and every later call. Those from seeds are the kind `starts`.

use super::marking::{index, listed, set};
use super::refusals::{state, with, Fault, Subject};
use super::Maker;
use crate::grids::coarse;
use crate::marks::{BOTH, HURRIED, NO_MARKS, PINNED, UNMARKED};
use crate::random::Random;
use crate::records::MISSING;
use reference::coarse::{begin_coarse, Lent};
use reference::grid::{begin, Sides};

type Voxel = [usize; 3];

const MARKS: [u8; 4] = [UNMARKED, PINNED, HURRIED, BOTH];

/// A grid of one value but for its negative voxels.
fn grid(sides: Voxel, allowed: u16, outside: i32, inside: &[Voxel]) -> String {
    let [a, b, c] = sides;
    let set: String = inside.iter().map(|&v| set("values", index(sides, v), -3)).collect();
    format!("sides {a} {b} {c}\nT {allowed}\nvalues fill {outside}\n{set}")
}

/// Values that differ from voxel to voxel, so that a block's eight have different distances.
fn varied(sides: Voxel, allowed: u16, inside: &[Voxel], seed: u64) -> String {
    let [a, b, c] = sides;
    let mut r = Random::new(seed);
    let mut values: Vec<i32> = (0..a * b * c).map(|_| r.between(0, 99) as i32).collect();
    inside.iter().for_each(|&v| values[index(sides, v)] = -(r.between(1, 99) as i32));
    format!("sides {a} {b} {c}\nT {allowed}\n{}", listed("values", &values))
}

/// Carved and opened in turn, so many times, and finished.
fn to_the_end(openings: usize) -> String {
    format!("{}carve 4294967295\nfinish\n", "carve 4294967295\nopen\n".repeat(openings))
}

const SHOWN: &str = "dump cdist\ndump cstatus\n";

// ---- bodies

/// Three paths from a corner along the axes: all other blocks of the box go.
fn branches([a, b, c]: Voxel) -> Vec<Voxel> {
    let x = (2..a - 2).map(|k| [k, 2, 2]);
    let y = (2..b - 2).map(|k| [2, k, 2]);
    x.chain(y).chain((2..c - 2).map(|k| [2, 2, k])).collect()
}

/// A path around a rectangle, in the layer z: its middle blocks stay, as they close a hole.
fn ring([a, b, _]: Voxel, z: usize) -> Vec<Voxel> {
    let along = (2..a - 2).flat_map(|x| [[x, 2, z], [x, b - 3, z]]);
    along.chain((3..b - 3).flat_map(|y| [[2, y, z], [a - 3, y, z]])).collect()
}

fn diagonal([a, b, c]: Voxel) -> Vec<Voxel> {
    (2..a.min(b).min(c) - 2).map(|k| [k, k, k]).collect()
}

/// All voxels from 2 to the side less 3 but those of the middle, which are enclosed.
fn shell(side: usize) -> Vec<Voxel> {
    let all = (2..side - 2).flat_map(|z| (2..side - 2).flat_map(move |y| (2..side - 2).map(move |x| [x, y, z])));
    all.filter(|v| !v.iter().all(|x| (4..side - 4).contains(x))).collect()
}

/// Two paths that cross over each other, with a post between them.
fn crossed([a, b, c]: Voxel) -> Vec<Voxel> {
    let x = (2..a - 2).map(|k| [k, b / 2, 2]);
    let y = (2..b - 2).map(|k| [a / 2, k, c - 3]);
    x.chain(y).chain((3..c - 3).map(|z| [a / 2, b / 2, z])).collect()
}

fn bodies() -> Vec<(&'static str, Voxel, Vec<Voxel>)> {
    vec![
        ("three paths from a corner", [12, 12, 12], branches([12, 12, 12])),
        ("three paths, three different sides", [14, 8, 10], branches([14, 8, 10])),
        ("a ring", [12, 10, 6], ring([12, 10, 6], 2)),
        ("a ring and a post", [10, 10, 12], ring([10, 10, 12], 4).into_iter().chain((2..10).map(|z| [2, 2, z])).collect()),
        ("a diagonal", [12, 14, 12], diagonal([12, 14, 12])),
        ("a shell about eight voxels", [10, 10, 10], shell(10)),
        ("crossed paths", [10, 12, 10], crossed([10, 12, 10])),
        ("a single voxel", [8, 6, 10], vec![[4, 3, 5]]),
        ("a single block in the least grid", [6, 6, 6], vec![[2, 2, 2], [3, 3, 3]]),
        ("a path along x alone", [16, 6, 6], (2..14).map(|x| [x, 3, 2]).collect()),
        (
            "two corners of a box, joined along its edges",
            [12, 8, 8],
            (2..10).map(|x| [x, if x < 6 { 2 } else { 5 }, if x < 6 { 2 } else { 5 }]).chain([[5, 3, 3], [5, 4, 4]]).collect(),
        ),
    ]
}

fn of_bodies() -> Vec<String> {
    let each = |(what, sides, inside): (&str, Voxel, Vec<Voxel>)| {
        let [one, other] = [grid(sides, 3, 9, &inside), varied(sides, 65535, &inside, 7)];
        let from = |start: &str| format!("{start}\n{SHOWN}carve 1\ncarve 5\n{}", to_the_end(4));
        format!("# {what}, from either start\n{one}{}{}{other}{}points 0 3000\n", from("begincoarse"), from("begin"), from("begincoarse"))
    };
    bodies().into_iter().map(each).collect()
}

// ---- distances

/// Each of a block's eight has the least in turn: the block is of the inside, or beside it.
fn least_of_eight() -> Vec<String> {
    let sides = [8, 8, 8];
    let eight = |block: Voxel| (0..8).map(move |o| [2 * block[0] + o % 2, 2 * block[1] + o / 2 % 2, 2 * block[2] + o / 4]);
    let mut inside = "# the least of a block's eight is each of them in turn, of the inside\n".to_string();
    let mut outside = "# and of a block beside it, whose eight share a face with S or not\n".to_string();
    for o in 0..8 {
        inside += &grid(sides, 0, 6, &eight([1, 1, 1]).chain(eight([2, 2, 2])).collect::<Vec<_>>());
        inside += &set("values", index(sides, eight([1, 1, 1]).nth(o).expect("eight")), -9 - o as i32);
        inside += &set("values", index(sides, eight([2, 2, 2]).nth(o).expect("eight")), -1_000_000_000);
        inside += "begincoarse\ndump cdist\n";
        // S is beside the block at its low x and at its high x, so that each of its eight keeps its value
        let around = |v: Voxel| [[v[0] - 1, v[1], v[2]], [v[0] + 1, v[1], v[2]]];
        let beside: Vec<Voxel> = eight([2, 2, 2]).flat_map(around).filter(|v| !(4..6).contains(&v[0])).collect();
        let s: Vec<Voxel> = beside.into_iter().chain((2..8).map(|x| [x, 3, 4])).collect();
        outside += &grid([10, 10, 10], 0, 50, &s);
        outside += &eight([2, 2, 2])
            .enumerate()
            .map(|(k, v)| set("values", index([10, 10, 10], v), if k == o { 0 } else { 20 + k as i32 }))
            .collect::<String>();
        outside += "begincoarse\ndump cdist\ndump cstatus\ncarve 1\ncarve 4294967295\n";
    }
    vec![inside, outside]
}

/// Distances up to the greatest, and the order in which blocks of equal and of different distances are examined.
fn far_values() -> String {
    let mut text = "# distances at the ends of the range, missing points and zeros\n".to_string();
    for outside in [0, 1, MISSING, 1_000_000_000, 32_768] {
        text += &format!("{}begincoarse\n{SHOWN}{}", grid([10, 8, 8], 2, outside, &branches([10, 8, 8])), to_the_end(3));
    }
    for seed in 1..=6 {
        text += &format!("{}begincoarse\ndump cstatus\ncarve 7\n", varied([12, 10, 8], 9, &crossed([12, 10, 8]), seed));
    }
    text
}

// ---- marks

/// Three paths in 8 x 8 x 8: four blocks of the box are outside.
fn small() -> String {
    grid([8, 8, 8], 9, 6, &branches([8, 8, 8]))
}

/// Every voxel by itself: those of S, those of its blocks, those of the other blocks, and all beyond the box of blocks.
fn each_voxel(mark: u8) -> String {
    let each: String = (0..512).map(|i| format!("marks set {i} {mark}\nbegincoarse\nmarks set {i} 0\n")).collect();
    format!("# mark {mark} on every voxel in turn\n{}{each}", small())
}

/// So many of a block's eight: from none to all, from either end.
fn so_many_of_eight() -> String {
    let sides = [12, 12, 12];
    let mut text = format!("# from none to all eight of a block, from either end\n{}", grid(sides, 9, 6, &branches(sides)));
    let eight: Vec<usize> = (0..8).map(|o| index(sides, [6 + o % 2, 6 + o / 2 % 2, 6 + o / 4])).collect();
    for mark in [PINNED, BOTH, HURRIED] {
        for many in 0..=8 {
            for voxels in [&eight[..many], &eight[8 - many..]] {
                text += &voxels.iter().map(|&i| set("marks", i, mark)).collect::<String>();
                text += "begincoarse\nbegin\ncarve 9\nmarks fill 0\n";
            }
        }
    }
    text
}

fn by_turns(turns: &[u8]) -> String {
    let (sides, inside) = ([12, 10, 8], branches([12, 10, 8]));
    let mut text = format!("# marks {turns:?} by turns\n");
    for from in 0..turns.len() {
        let marks: Vec<u8> = turns.iter().copied().cycle().skip(from).take(960).collect();
        text += &format!(
            "{}{}begincoarse\n{SHOWN}carve 1\ncarve 1\ncarve 9\n{}",
            varied(sides, 9, &inside, 3),
            listed("marks", &marks),
            to_the_end(3)
        );
    }
    text
}

/// Few pins or hurries, far apart.
fn spread(mark: u8) -> String {
    let (sides, inside) = ([12, 12, 12], branches([12, 12, 12]));
    let mut text = format!("# a mark of {mark} here and there\n{}", grid(sides, 9, 6, &inside));
    for step in [7, 31, 97, 113, 307, 530] {
        text += &(5..1728).step_by(step).map(|i| set("marks", i, mark)).collect::<String>();
        text += "begincoarse\ndump cstatus\ncarve 3\ncarve 4294967295\nopen\nmarks fill 0\n";
    }
    text
}

/// Document 02, CR 10: any of a block's eight pins it, also one outside the box of voxels.
fn pinned_from_outside() -> String {
    let pair = grid([8, 8, 8], 65535, 6, &[[3, 3, 3], [4, 3, 3]]);
    let mut text = format!("# two voxels whose blocks reach beyond their box: the pin of one that begin does not keep\n{pair}");
    let corner = index([8, 8, 8], [2, 2, 2]);
    for mark in MARKS {
        for start in ["begin", "begincoarse"] {
            text += &format!("marks set {corner} {mark}\n{start}\ndump status\n{}dump status\n", to_the_end(30));
        }
    }
    // paths from 3 to 6 on each axis: their blocks reach from 2 to 7
    let (sides, inside) = ([10, 10, 10], (3..7).flat_map(|k| [[k, 3, 3], [3, k, 3], [3, 3, k]]).collect::<Vec<_>>());
    for v in [[7, 7, 7], [7, 6, 6], [6, 7, 6], [6, 6, 7], [7, 4, 5], [2, 7, 7], [5, 6, 7], [6, 6, 6], [2, 2, 2], [8, 6, 6]] {
        text +=
            &format!("{}{}begincoarse\n{SHOWN}{}", grid(sides, 65535, 6, &inside), set("marks", index(sides, v), PINNED), to_the_end(3));
        text += &format!("begin\n{}", to_the_end(3));
    }
    text
}

/// Pins and hurries on all voxels that are in no block of the box: the answers are those without them.
fn beyond_the_box() -> String {
    let sides = [12, 8, 10];
    let inside = [[4, 2, 4], [5, 3, 4], [6, 4, 5], [7, 5, 6]];
    let within = |v: Voxel| (4..8).contains(&v[0]) && (2..6).contains(&v[1]) && (4..8).contains(&v[2]);
    let mut text = "# marks on every voxel beyond the box of blocks\n".to_string();
    for mark in MARKS {
        let marks: Vec<u8> = (0..960).map(|i| if within([i % 12, i / 12 % 8, i / 96]) { 0 } else { mark }).collect();
        text += &format!("{}{}begincoarse\n{SHOWN}carve 4\n{}", varied(sides, 2, &inside, 9), listed("marks", &marks), to_the_end(3));
    }
    text
}

/// The eight voxels within a shell are kept and not bare: hurries alone make them pending.
fn deep_hurries() -> String {
    let sides = [10, 10, 10];
    let mut text = format!("# hurries deep inside, pending once the blocks are split\n{}", grid(sides, 3, 6, &shell(10)));
    for mark in MARKS {
        for v in [[4, 4, 4], [5, 5, 5], [4, 5, 4]] {
            text += &format!("marks set {} {mark}\nbegincoarse\ncarve 1\ncarve 9\nopen\n", index(sides, v));
        }
        text += "dump status\nmarks fill 0\n";
    }
    text += &format!("{}marks fill 2\nbegincoarse\ncarve 3\ncarve 4294967295\nopen\n", grid([12, 12, 12], 3, 6, &branches([12, 12, 12])));
    text + &format!("marks fill 1\nmarks set {} 2\nbegincoarse\ndump status\ncarve 9\n", index([12, 12, 12], [7, 7, 7]))
}

/// Marks that change after the start: a ring, whose hole stays until it is opened.
fn later_marks() -> String {
    let mut text = "# each mark of all voxels at the start, and each other one after it\n".to_string();
    for first in MARKS {
        for then in MARKS {
            text += &format!("{}marks fill {first}\nbegincoarse\n", grid([10, 10, 6], 9, 6, &ring([10, 10, 6], 2)));
            text += &format!("marks fill {then}\ncarve 5\ntake 322\ntake 372\ntake 333\nopen\nmarks fill 0\ncarve 3\ntake 327\n");
            text += &format!(
                "marks fill {first}\ncarve 4294967295\nopen\nmarks fill {then}\nopen\nmarks fill 0\nopen\ncarve 9\nopen\nfinish\n"
            );
        }
    }
    for mark in [PINNED, HURRIED, BOTH] {
        let ring = grid([10, 10, 6], 9, 6, &ring([10, 10, 6], 2));
        text += &format!("{ring}begincoarse\ncarve 4294967295\nmarks set 244 {mark}\nmarks set 344 {mark}\nopen\ncarve 9\nopen\n");
    }
    text
}

// ---- number 31

const GOOD: Voxel = [8, 10, 6];

fn unfit_sides() -> String {
    let mut text = "# 31: odd sides, and sides of 3, 4 and 5, with buffers of n and n / 8 rounded down\n".to_string();
    for k in 0..3 {
        for side in [3, 4, 5, 6, 7, 8, 9, 11, 63, 64] {
            let mut sides = [8, 6, 10];
            sides[k] = side;
            text += &format!("{}begincoarse\nbegin\n", grid(sides, 1, 4, &[sides.map(|side| side / 2)]));
        }
    }
    for sides in [[5, 5, 5], [3, 3, 3], [4, 4, 4], [7, 7, 7], [4, 6, 6], [6, 6, 4], [6, 5, 4]] {
        text += &format!("{}begincoarse\n", grid(sides, 1, 4, &[sides.map(|side| side / 2)]));
    }
    text
}

/// Near each end along each axis; and the voxels next to these, which are not too near.
fn near_ends(of_s: bool) -> String {
    let (body, at): (&[Voxel], Voxel) = if of_s { (&[], [3, 4, 3]) } else { (&[[3, 4, 3], [4, 4, 3], [4, 5, 3]], [2, 7, 2]) };
    let which = if of_s { "the only negative one" } else { "apart from S" };
    let mut text = format!("# 31: a negative voxel near each end along each axis, {which}\n");
    for k in 0..3 {
        for x in [1, 2, GOOD[k] - 3, GOOD[k] - 2] {
            let mut v = at;
            v[k] = x;
            text += &format!("{}begincoarse\nbegin\nbegincoarse\ndump cdist\n", grid(GOOD, 1, 4, &[body, &[v]].concat()));
        }
    }
    text
}

/// Every voxel of a grid in turn is the second negative one.
fn each_place() -> String {
    let n = GOOD.iter().product::<usize>();
    let mut text = format!("# 31 and 3 at every place\n{}", grid(GOOD, 1, 4, &[[3, 4, 3]]));
    let middle = index(GOOD, [3, 4, 3]);
    text += &(0..n).filter(|&i| i != middle).map(|i| format!("values set {i} -1\nbegincoarse\nvalues set {i} 4\n")).collect::<String>();
    text
}

/// Missing points near the ends are not measured, and gaps count as they are filled: 31 is the same by either.
fn gaps() -> Vec<String> {
    let sides = [10, 10, 10];
    let solid = |less: &[Voxel], range: std::ops::Range<usize>| {
        let all = range.clone().flat_map(|z| range.clone().flat_map(move |y| (2..8).map(move |x| [x, y, z])));
        all.filter(|v| !less.contains(v)).collect::<Vec<_>>()
    };
    let missing = |voxels: &[Voxel]| voxels.iter().map(|&v| set("values", index(sides, v), MISSING)).collect::<String>();
    let mut filled = "# gaps that are filled, in one block and over several, and one that stays open\n".to_string();
    let holes: [&[Voxel]; 8] = [
        &[[4, 4, 4]],
        &[[5, 5, 5]],
        &[[6, 3, 6], [3, 6, 3]],
        &[[3, 3, 4]],
        &[[3, 4, 4], [4, 4, 4]],
        &[[3, 3, 3], [4, 3, 3], [4, 4, 3], [4, 4, 4]],
        &[[2, 4, 4]],
        &[[3, 3, 3], [5, 5, 5], [6, 6, 6]],
    ];
    for hole in holes {
        filled += &format!(
            "{}{}begincoarse\n{SHOWN}take {}\n{}",
            grid(sides, 1, 7, &solid(hole, 2..8)),
            missing(hole),
            index(sides, hole[0]),
            to_the_end(2)
        );
    }
    let mut near = "# missing points near the ends, and on the border, are not negative\n".to_string();
    for v in [[1, 4, 4], [8, 4, 4], [4, 1, 4], [4, 8, 4], [4, 4, 1], [4, 4, 8], [0, 4, 4], [4, 9, 4], [1, 1, 1], [2, 2, 1]] {
        near += &format!("{}{}begincoarse\n", grid(sides, 1, 7, &solid(&[], 3..6)), missing(&[v]));
    }
    near += &format!("{}values fill {MISSING}\nbegincoarse\n{}begincoarse\n{SHOWN}", grid(sides, 1, 7, &[]), set("values", 444, -1));
    // a gap with walls near the ends: a wall is too near, whether the gap is filled or not
    for (v, wall) in [([2, 4, 4], [1, 4, 4]), ([7, 4, 4], [8, 4, 4]), ([4, 2, 4], [4, 1, 4]), ([4, 4, 7], [4, 4, 8])] {
        near +=
            &format!("{}{}{}begincoarse\n", grid(sides, 1, 7, &solid(&[v], 2..8)), missing(&[v]), set("values", index(sides, wall), -1));
    }
    let joined = format!(
        "# a gap that joins two groups, and one of a group that is discarded\n{}{}begincoarse\n{SHOWN}begin\n{}{}{}begincoarse\n{SHOWN}{}",
        grid([14, 8, 8], 1, 7, &cross_about([5, 4, 4]).into_iter().chain(cross_about([7, 4, 4])).chain([[10, 4, 4]]).collect::<Vec<_>>()),
        [[5, 4, 4], [7, 4, 4]].map(|v| set("values", index([14, 8, 8], v), MISSING)).concat(),
        grid(
            [14, 8, 8],
            1,
            7,
            &cross_about([10, 4, 4]).into_iter().chain((2..6).flat_map(|x| [[x, 2, 2], [x, 3, 2], [x, 5, 5]])).collect::<Vec<_>>()
        ),
        set("values", index([14, 8, 8], [10, 4, 4]), MISSING),
        set("values", index([14, 8, 8], [4, 4, 4]), -2),
        to_the_end(2)
    );
    vec![filled, near, joined]
}

fn cross_about([x, y, z]: Voxel) -> Vec<Voxel> {
    vec![[x - 1, y, z], [x + 1, y, z], [x, y - 1, z], [x, y + 1, z], [x, y, z - 1], [x, y, z + 1]]
}

/// The inside is S alone: other negative voxels are outside. None of them is in a block of S, as all eight of a block touch.
fn discarded() -> String {
    let sides = [14, 10, 8];
    let path: Vec<Voxel> = (2..9).map(|x| [x, 2, 2]).collect();
    let mut text = "# groups that are discarded: beside the box, in it, next to a block of S, and of equal size\n".to_string();
    let others: [&[Voxel]; 7] = [
        &[[11, 7, 5]],
        &[[2, 5, 5], [8, 7, 5]],
        &[[4, 4, 2], [5, 5, 5]],
        &[[10, 3, 3]],
        &[[10, 3, 3], [11, 2, 3]],
        &[[2, 4, 3], [8, 4, 3]],
        &[[2, 7, 5], [3, 7, 5], [4, 7, 5], [5, 7, 5], [6, 7, 5], [7, 7, 5], [8, 7, 5]],
    ];
    for other in others {
        let all: Vec<Voxel> = path.iter().copied().chain(other.iter().copied()).collect();
        text += &format!("{}begincoarse\n{SHOWN}carve 4294967295\nopen\n", grid(sides, 1, 5, &all));
    }
    text
}

// ---- other numbers

/// 480 voxels, 60 blocks; 3, 4, 3 is in S.
const FAULTS: [Fault; 48] = [
    state("1", "rawsides 65 10 6\n"),
    state("1", "rawsides 2 10 6\n"),
    state("1", "rawsides 8 65 6\n"),
    state("1", "rawsides 8 2 6\n"),
    state("1", "rawsides 8 10 65\n"),
    state("1", "rawsides 8 10 2\n"),
    state("1", "rawsides 8 10 0\n"),
    state("1", "rawsides 18446744073709551615 10 6\n"),
    state("2", "cdist len 59\n"),
    state("2", "cdist len 61\n"),
    state("2", "cstatus len 59\n"),
    state("2", "cstatus len 61\n"),
    state("2", "cdist len 0\n"),
    state("2", "cstatus len 0\n"),
    state("2", "cdist len 480\n"),
    state("2", "cstatus len 480\n"),
    state("2", "values len 479\n"),
    state("2", "values len 481\n"),
    state("2", "marks len 479\n"),
    state("2", "marks len 481\n"),
    state("2", "marks len 0\n"),
    state("2", "dist len 479\n"),
    state("2", "dist len 481\n"),
    state("2", "status len 479\n"),
    state("2", "status len 481\n"),
    state("28", "values set 200 1000000001\n"),
    state("28", "values set 0 -1000000001\n"),
    state("28", "values set 479 2147483647\n"),
    state("28", "values set 100 -2147483647\n"),
    state("28", "values set 479 -2000000000\nvalues set 0 2000000000\n"),
    state("28", "values set 479 2000000000\n"),
    state("28", "values set 479 -2000000000\n"),
    state("28", "values set 0 1000000001\n"),
    state("29", "marks set 275 4\n"),
    state("29", "marks set 0 255\n"),
    state("29", "marks set 479 128\n"),
    state("29", "marks set 300 9\n"),
    state("29", "marks set 0 4\n"),
    state("29", "marks set 0 9\n"),
    state("29", "marks set 479 4\n"),
    state("29", "marks fill 7\n"),
    state("29", "marks set 20 4\nmarks set 300 4\n"),
    state("3", "values set 32 -1\n"),
    state("3", "values set 39 -1\n"),
    state("3", "values set 84 -1\n"),
    state("3", "values set 156 -1\n"),
    state("3", "values set 3 -1\n"),
    state("3", "values set 444 -1\n"),
];

const MORE_FAULTS: [Fault; 10] = [
    state("4", "values fill 4\n"),
    state("4", "values fill -2147483648\n"),
    state("31", "values set 105 -1\n"),
    state("31", "values set 110 -1\n"),
    state("31", "values set 268 -1\nvalues set 252 -1\n"),
    state("31", "values set 308 -1\n"),
    state("31", "values set 116 -1\n"),
    state("31", "values set 356 -1\n"),
    state("2", "cdist list\ncstatus list\n"),
    state("2", "marks len 2097152\n"),
];

/// 4 and 31 come together where no voxel is negative and a side is odd.
fn subject() -> Subject<'static> {
    let grid = grid(GOOD, 2, 4, &[[3, 4, 3], [4, 4, 3], [4, 5, 2]]);
    // what a coarse start left before makes a write of a refused one seen
    let state = format!("{grid}marks set 276 1\nbegincoarse\nmarks set 276 2\nvalues set 276 -7\n");
    Subject { call: "begincoarse", index: "", axis: "", state, faults: with(&FAULTS, &MORE_FAULTS) }
}

/// The same pairs where a side is odd, so that 31 is of the sides: 2 is for n / 8 rounded down.
fn of_odd_sides() -> String {
    let mut text = "# every number before 31, where 31 is of the sides\n".to_string();
    for sides in [[7, 6, 6], [6, 7, 6], [6, 6, 7], [5, 6, 8], [4, 6, 6]] {
        let n = sides.iter().product::<usize>();
        let grid = grid(sides, 1, 4, &[sides.map(|side| side / 2)]);
        let faults = [
            String::new(),
            "values fill 4\n".to_string(),
            "values fill -2147483648\n".to_string(),
            "values set 0 -1\n".to_string(),
            "marks set 1 4\n".to_string(),
            "values set 2 2147483647\n".to_string(),
            "values fill 4\nvalues set 2 2147483647\n".to_string(),
            "values fill 4\nmarks set 2 4\n".to_string(),
            format!("marks len {}\n", n + 1),
            format!("cdist len {}\n", n.div_ceil(8)),
            format!("cstatus len {}\n", n.div_ceil(8)),
            format!("cdist len {}\n", n / 8 + 1),
            format!("cstatus len {}\n", n / 8 + 1),
            format!("cdist len {}\n", n / 8 - 1),
            format!("cstatus len {}\n", n / 8 - 1),
            "cdist len 0\ncstatus len 0\n".to_string(),
            format!("marks len {}\n", n - 1),
            format!("dist len {}\n", n + 1),
            format!("rawsides {} {} 65\n", sides[0], sides[1]),
        ];
        text += &faults.map(|fault| format!("{grid}{fault}begincoarse\n")).concat();
    }
    text
}

/// Lengths of the two further buffers, on even sides and on odd ones.
fn lengths() -> String {
    let mut text = "# lengths of the two further buffers\n".to_string();
    for sides in [[6, 6, 6], [7, 7, 7], [3, 3, 3], [9, 7, 5]] {
        let n = sides.iter().product::<usize>();
        for lens in [
            [n / 8, n / 8],
            [n.div_ceil(8), n / 8],
            [n / 8, n.div_ceil(8)],
            [n / 8 + 1, n / 8],
            [n / 8, n / 8 + 1],
            [0, n / 8],
            [n / 8, 0],
            [n, n],
            [1 << 16, n / 8],
            [n / 8, 2_097_152],
        ] {
            text += &format!(
                "{}cdist len {}\ncstatus len {}\nbegincoarse\n",
                grid(sides, 1, 4, &[sides.map(|side| side / 2)]),
                lens[0],
                lens[1]
            );
        }
    }
    // plain begin is not lent them
    text + "cdist len 3\ncstatus list\nbegin\ncarve 1\nsides 6 6 6\nvalues set 86 -1\ncstatus list 7\nbegin\ncdist fill -5\nbegin\nfinish\n"
}

/// A refused start writes nothing, and the next one, set right, is done.
fn set_right() -> String {
    let mut text = format!("# refused, then done: record and buffers stay until then\n{}begincoarse\n", small());
    for (wrong, right) in [
        ("cdist len 63", "cdist len 64"),
        ("cstatus len 65", "cstatus len 64"),
        ("values set 0 1000000001", "values set 0 6"),
        ("marks set 511 4", "marks set 511 3"),
        ("values set 7 -1", "values set 7 6"),
        ("values set 73 -1", "values set 73 6"),
        ("rawsides 7 8 8", "rawsides 8 8 8"),
    ] {
        text += &format!("{wrong}\nbegincoarse\nrec show 0\ncarve 2\n{right}\nbegincoarse\ncarve 2\nrec show 0\n");
    }
    text
}

/// Either start over what the other left, with other values and marks.
fn over_each_other() -> String {
    let mut text = "# a coarse start after a plain one, a plain one after a coarse one, and a coarse one after another\n".to_string();
    let sides = [10, 8, 8];
    let values = |inside: &[Voxel]| {
        let mut values = vec![6; 640];
        inside.iter().for_each(|&v| values[index(sides, v)] = -2);
        listed("values", &values)
    };
    text += &grid(sides, 2, 6, &branches(sides));
    for starts in [["begin", "begincoarse"], ["begincoarse", "begin"], ["begincoarse", "begincoarse"]] {
        for inside in [diagonal(sides), crossed(sides), vec![[5, 4, 4]]] {
            text += &format!(
                "{}{}\ncarve 6\nmarks set 333 1\n{}{}\n{SHOWN}carve 3\nmarks fill 0\n",
                values(&branches(sides)),
                starts[0],
                values(&inside),
                starts[1]
            );
            text += &format!("carve 4294967295\nfinish\n{}\nrec show 0\ncarve 1\n", starts[1]);
        }
    }
    text + "begincoarse\nbegincoarse\nbegin\nbegincoarse\nhash\n"
}

// ---- later calls

/// Takes of every voxel in turn, kept or not, by rising and falling indices.
fn taken() -> String {
    let mut text = "# every voxel taken after a coarse start, from either end\n".to_string();
    let start = varied([8, 8, 8], 9, &diagonal([8, 8, 8]), 5);
    for back in [false, true] {
        text += &format!("{start}begincoarse\n");
        text += &(0..512).map(|i| format!("take {}\n", if back { 511 - i } else { i })).collect::<String>();
        text += "carve 4294967295\nopen\ncarve 4294967295\nfinish\npoints 0 900\n";
    }
    text
}

/// One examination at a time, to the end.
fn one_by_one() -> String {
    let start = varied([10, 8, 8], 3, &crossed([10, 8, 8]), 11);
    format!("# carved one by one\n{start}begincoarse\n{}{}crossing 200 0\ncrossing 300 2\n", "carve 1\n".repeat(150), to_the_end(4))
}

/// T from none to the greatest, on a body where the openings matter.
fn openings() -> String {
    let body: Vec<Voxel> =
        ring([12, 12, 8], 2).into_iter().chain(ring([12, 12, 8], 5)).chain((3..5).flat_map(|z| [[2, 2, z], [9, 9, z]])).collect();
    let mut text = "# openings after either start, with T from 0 on\n".to_string();
    for allowed in [0, 1, 2, 3, 5, 255, 256, 32_767, 32_768, 65_535] {
        text += &format!("{}begincoarse\n{}begin\n{}", grid([12, 12, 8], allowed, 5, &body), to_the_end(6), to_the_end(6));
    }
    text
}

/// Long grids, so that no side is taken for another.
fn long_grids() -> String {
    let mut text = "# long grids along each axis\n".to_string();
    for sides in [[64, 6, 6], [6, 64, 6], [6, 6, 64], [8, 20, 6], [20, 6, 8]] {
        let inside: Vec<Voxel> = (2..sides.iter().max().expect("three sides") - 2)
            .map(|k| sides.map(|side| if side > 10 { k } else { 2 + k / 5 % (side - 4) }))
            .filter(|v| (0..3).all(|j| v[j] <= sides[j] - 3))
            .collect();
        text += &format!("{}begincoarse\ndump cstatus\ncarve 20\n{}", varied(sides, 4, &inside, 2), to_the_end(2));
    }
    text
}

/// A box of 504 blocks, nearly all of which go.
fn many_blocks() -> String {
    let sides = [20, 18, 22];
    format!("# hundreds of blocks examined\n{}begincoarse\ncarve 1\ncarve 100\n{}", grid(sides, 1, 6, &branches(sides)), to_the_end(1))
}

/// Bodies that differ at the end, where openings are limited.
fn other_bodies() -> String {
    let mut text = "# where openings are limited, either start may end with another body\n".to_string();
    for (seed, greatest) in DIFFERENT {
        let g = coarse(&mut Random::new(seed), greatest);
        let [a, b, c] = g.sides;
        text += &format!("sides {a} {b} {c}\nT {}\n{}", g.allowed, listed("values", &g.values));
        text += &["begincoarse", "begin"].map(|start| format!("{start}\n{}", to_the_end(3))).concat();
    }
    text
}

/// Seeds of such grids, and the greatest side of each.
const DIFFERENT: [(u64, i64); 8] = [(956, 8), (9797, 8), (18_484, 8), (527, 10), (1337, 10), (1421, 10), (226, 12), (975, 12)];

pub fn scripts() -> Vec<String> {
    let mut scripts = of_bodies();
    scripts.extend(least_of_eight());
    scripts.push(far_values());
    scripts.extend([PINNED, HURRIED, BOTH].map(each_voxel));
    scripts.push(so_many_of_eight());
    scripts.extend([&[0, 1][..], &[0, 2], &[2, 0, 0, 0, 0, 3, 0], &[0, 0, 0, 1, 2], &[0, 0, 0, 0, 0, 0, 0, 0, 0, 0, 1]].map(by_turns));
    scripts.extend([PINNED, HURRIED, BOTH].map(spread));
    scripts.extend([pinned_from_outside(), beyond_the_box(), deep_hurries(), later_marks()]);
    scripts.extend([unfit_sides(), near_ends(true), near_ends(false), each_place()]);
    scripts.extend(gaps());
    scripts.push(discarded());
    scripts.extend(subject().scripts());
    scripts.extend([of_odd_sides(), lengths(), set_right(), over_each_other()]);
    scripts.extend([taken(), one_by_one(), openings(), long_grids(), many_blocks(), other_bodies()]);
    scripts
}

/// 64 voxels a side: posts on every second block of a floor, so that most blocks between them are examined more than once; for what takes longest.
pub(super) fn greatest() -> String {
    let (mut r, sides) = (Random::new(1), [64, 64, 64]);
    let within = |x: usize| (2..62).contains(&x);
    let inside = |[x, y, z]: Voxel| x % 4 == 2 && (y % 4 == 2 || z == 2) || y == 2 && z == 2;
    let value = |i: usize| match [i % 64, i / 64 % 64, i / 4096] {
        v if v.into_iter().all(within) && inside(v) => -3,
        _ => r.between(0, 9),
    };
    let values: Vec<i64> = (0..262_144).map(value).collect();
    let mut text = format!(
        "# 64 voxels a side, a coarse start: over 65,535 examinations of blocks\nsides 64 64 64\nT 3\n{}",
        listed("values", &values)
    );
    text += &set("marks", index(sides, [61, 61, 61]), PINNED);
    text += &set("marks", index(sides, [40, 3, 3]), HURRIED);
    let near = index(sides, [1, 30, 30]);
    text + &format!("begincoarse\ncarve 1\ncarve 400\ntake 0\nvalues set {near} -1\nbegincoarse\nvalues set {near} 0\nmarks fill 0\nbegincoarse\ncarve 9\n")
}

// ---- from seeds

impl Maker {
    pub(super) fn begin_coarse(&mut self, values: &[i32]) -> bool {
        self.say("begincoarse");
        let (sides, n) = (self.record.sides, self.record.sides.n());
        let (mut dist, mut status) = (vec![0; n / 8], vec![0; n / 8]);
        let voxels = Lent { dist: &mut self.dist, status: &mut self.status };
        let blocks = Lent { dist: &mut dist, status: &mut status };
        match begin_coarse(sides, self.record.t, values, &self.marks, voxels, blocks) {
            Ok(begun) => self.record = begun.next,
            Err(_) => return false,
        }
        true
    }

    /// A call with something wrong about it, which is then set right.
    fn refused_start(&mut self, values: &[i32]) {
        let (n, Sides { a, b, c }) = (values.len(), self.record.sides);
        let i = self.r.below(n as u64);
        let byte = self.r.pick(&NO_MARKS);
        let length = self.r.pick(&[0, n / 8 - 1, n / 8 + 1, n]);
        let (wrong, right) = match self.r.below(7) {
            0 => (format!("cdist len {length}"), format!("cdist len {}", n / 8)),
            1 => (format!("cstatus len {length}"), format!("cstatus len {}", n / 8)),
            2 => (format!("marks set {i} {byte}"), format!("marks set {i} {}", self.marks[i as usize])),
            3 => (format!("values set {i} 1000000001"), format!("values set {i} {}", values[i as usize])),
            4 => (format!("values set {i} -1"), format!("values set {i} {}", values[i as usize])),
            5 => (format!("rawsides {} {b} {c}", a - 1), format!("rawsides {a} {b} {c}")),
            _ => (format!("marks len {}", n - 1), format!("marks len {n}\nmarks set {} {}", n - 1, self.marks[n - 1])),
        };
        self.say(format!("{wrong}\nbegincoarse\n{right}"));
    }

    /// A coarse start, some calls, and now and then another start in the same buffers.
    pub(super) fn starts(&mut self, greatest: i64) {
        // a box of few blocks has few that go
        let g = coarse(&mut self.r, greatest.max(9) + 3);
        let [a, b, c] = g.sides.map(|side| side as u64);
        let sides = Sides { a, b, c };
        self.set(sides, g.allowed);
        self.list_of("values", &g.values);
        if self.r.chance(60) {
            let (marked, with) = (self.r.pick(&[1, 3, 10, 40]), self.r.pick(&[&[PINNED][..], &[HURRIED], &[PINNED, HURRIED, BOTH]]));
            self.marks = (0..sides.n()).map(|_| if self.r.chance(marked) { self.r.pick(with) } else { UNMARKED }).collect();
            let marks = self.marks.clone();
            self.list_of("marks", &marks);
        }
        let mut starts = 1 + usize::from(self.r.chance(40));
        while starts > 0 {
            if self.r.chance(40) {
                self.refused_start(&g.values);
            }
            if !self.begin_coarse(&g.values) {
                return self.say("dump cdist\nhash");
            }
            if self.r.chance(50) {
                self.say("dump cdist\ndump cstatus");
            }
            let (count, weights) = (self.r.between(2, 12), self.r.pick(&[[35, 30, 35, 0], [60, 20, 20, 0], [10, 80, 10, 0]]));
            self.calls(count, weights);
            if self.r.chance(30) {
                self.say("begin");
                self.record =
                    begin(sides, g.allowed, &g.values, &self.marks, &mut self.dist, &mut self.status).expect("a coarse start took it");
                let count = self.r.between(1, 5);
                self.calls(count, weights);
            }
            starts -= 1;
        }
        if self.r.chance(70) {
            self.and_finish();
        }
    }
}
